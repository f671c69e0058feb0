//! A file with the suggestions to its faults applied, round after round.

// Extracted from crates/file_fixes/src/rounds.rt by tools/extract: not to be edited.
// That source has the contracts, and is proved. That this text means the same is only tested.

use crate::proved::file_fixes::all_faults::all_faults;
use crate::proved::file_fixes::fault_search::keeps_unmended;
use crate::proved::file_fixes::literals::mended_literals;
use crate::proved::file_fixes::mended::are_gone;
use crate::proved::file_fixes::outside::keeps_tokens;
use crate::proved::file_fixes::round_edits::round_edits;
use crate::proved::rust_tokens::tokens;
use crate::proved::source_lint::file_faults;
use crate::proved::source_report::{mend_each, Finding, Options, Report};
use crate::shim::alloc::AllocError;
use crate::shim::prelude::*;

/// The most rounds over a file that is too large for more.
const MOST_ROUNDS: usize = 16;

/// How many bytes more rounds than these may read together.
const MOST_BYTES: usize = 1 << 24;

/// The fixes of a file.
#[non_exhaustive]
#[derive(Clone, Debug, Eq, PartialEq)]
pub struct FileFixes {
    /// The source with the fixes, or `None` if nothing is fixed.
    pub text: Option<String>,
    /// The ids of the faults that are fixed, in the order of the fixes.
    pub ids: Vec<&'static str>,
    /// The report on the source with the fixes.
    pub report: Report,
}

/// A file after a round.
struct Round {
    text: String,
    /// The ids of the faults that the round mended.
    ids: Vec<&'static str>,
    report: Report,
}

/// Returns whether a report on a file is no worse than the old one: the file does not break, has as
/// many calls, and no more faults.
#[inline(never)]
pub fn is_no_worse(old: &Report, new: &Report) -> bool {
    old.first_break.is_none()
        && new.first_break.is_none()
        && new.calls.len() == old.calls.len()
        && new.findings.len() <= old.findings.len()
}

/// Returns whether a report on a file after a round is no worse than the one before it, those of
/// these faults that the round mends are gone, and the others stay.
#[inline(never)]
fn keeps_faults(old: &Report, faults: &[Finding], new: &Report) -> Result<bool, AllocError> {
    if !is_no_worse(old, new) {
        return Ok(false);
    }
    if !are_gone(faults, new.findings.as_slice())? {
        return Ok(false);
    }
    keeps_unmended(faults, new.findings.as_slice())
}

/// Returns whether the edits of a round that mends these faults are in their calls, it mends faults
/// in so many literals, the tokens that no edit touches are the same in a file before and after the
/// round, and it lexes after the round.
#[inline(never)]
fn keeps_others(
    old: &str,
    faults: &[Finding],
    literals: usize,
    new: &str,
) -> Result<bool, AllocError> {
    let old_tokens = tokens(old)?;
    let Some(most) = mended_literals(old, old_tokens.as_slice(), faults)? else {
        return Ok(false);
    };
    if literals > most {
        return Ok(false);
    }
    let edits = round_edits(faults)?;
    keeps_tokens(old_tokens.as_slice(), edits.as_slice(), new)
}

/// Returns how many faults of a report on a file after a round are new. Of these faults the round
/// mends so many, and the others stay.
fn new_count(faults: &[Finding], mended_count: usize, new: &Report) -> usize {
    let kept_count = faults.len().saturating_sub(mended_count);
    new.findings.len().saturating_sub(kept_count)
}

/// Returns a file with this report after one more round, in which these faults are mended: those of
/// the report, and others of the same format strings or not. Returns `None` if there is nothing to
/// mend or the file with its edits is worse, lacks a fault that is not mended, has a mended one
/// still or more new ones than literals of mended ones, has other tokens where no edit is or does
/// not lex, or an edit is outside of its call.
#[inline(never)]
fn round_over(
    source: &str,
    old: &Report,
    faults: &[Finding],
    options: &Options<'_>,
) -> Result<Option<Round>, AllocError> {
    let edited_text = mend_each(source, faults)?;
    if edited_text.ids.is_empty() {
        return Ok(None);
    }
    let Some(text) = String::from_utf8(edited_text.bytes).ok() else {
        return Ok(None);
    };
    let report = file_faults(text.as_str(), options)?;
    if !keeps_faults(old, faults, &report)? {
        return Ok(None);
    }
    let new_faults = new_count(faults, edited_text.ids.len(), &report);
    if !keeps_others(source, faults, new_faults, text.as_str())? {
        return Ok(None);
    }
    Ok(Some(Round {
        text,
        ids: edited_text.ids,
        report,
    }))
}

/// Returns a file with this report after one more round: over all faults of the faulty format
/// strings, or else over those of the report alone. Returns `None` if no round follows, and `Err`
/// if an allocation fails.
#[inline(never)]
fn round_after(
    source: &str,
    report: &Report,
    options: &Options<'_>,
) -> Result<Option<Round>, AllocError> {
    let findings = report.findings.as_slice();
    if let Some(faults) = all_faults(source, findings)? {
        let round = round_over(source, report, faults.as_slice(), options)?;
        if round.is_some() {
            return Ok(round);
        }
    }
    round_over(source, report, findings, options)
}

/// Returns a file after one more round, or `None` if no round follows.
#[inline(never)]
fn next_round(
    text: &str,
    file_fixes: &FileFixes,
    options: &Options<'_>,
) -> Result<Option<Round>, AllocError> {
    match &file_fixes.text {
        None => round_after(text, &file_fixes.report, options),
        Some(fixed_text) => round_after(fixed_text.as_str(), &file_fixes.report, options),
    }
}

/// Returns the most rounds over a file.
#[inline]
fn most_rounds(text: &str) -> usize {
    (MOST_BYTES / (text.len() + 1)).max(MOST_ROUNDS)
}

/// Returns fixes with those of one more round.
#[inline(never)]
fn with_round(file_fixes: FileFixes, round: Round) -> Result<FileFixes, AllocError> {
    let mut ids = file_fixes.ids;
    ids.extend_from_slice(round.ids.as_slice());
    Ok(FileFixes {
        text: Some(round.text),
        ids,
        report: round.report,
    })
}

/// Reads a source file as [`file_faults`] does, and applies to its faults the suggestions that
/// rustc calls applicable by a machine, but for two: an argument that can be removed, since a comma
/// stays, and the macro `dbg!` in the place of another one.
///
/// A round applies the suggestions of all faults whose edits follow each other. The next round does
/// the same with the new report. There are at most sixteen, or as many as read 16 MiB together. A
/// round is left out, and none follows, if an edit is neither in the literal of its fault nor puts
/// text into the arguments behind it, if the file then breaks or does not lex, has another number
/// of calls, more faults, or other tokens where no edit is, or if a fault stays that the round
/// mends, or one goes that it does not. So a round changes only the tokens that its edits touch,
/// its faults go, the others stay, and at most one new fault comes for each literal that it mends.
/// Nothing is fixed in a file that breaks.
#[inline(never)]
pub fn fixes(text: &str, options: &Options<'_>) -> Result<FileFixes, AllocError> {
    let mut file_fixes = FileFixes {
        text: None,
        ids: Vec::new(),
        report: file_faults(text, options)?,
    };
    let mut rounds_left = most_rounds(text);
    while rounds_left > 0 {
        let Some(round) = next_round(text, &file_fixes, options)? else {
            return Ok(file_fixes);
        };
        file_fixes = with_round(file_fixes, round)?;
        rounds_left -= 1;
    }
    Ok(file_fixes)
}
