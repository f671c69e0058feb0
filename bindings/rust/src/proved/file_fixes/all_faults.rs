//! The faults of a round: those of a report, and the others of the same format strings. The
//! compiler shows one fault of each string, and so does a report.

// Extracted from crates/file_fixes/src/all_faults.rt by tools/extract: not to be edited.
// That source has the contracts, and is proved. That this text means the same is only tested.

use crate::proved::asm_lint::{dropped_crs, offset_in, read_literal, Literal};
use crate::proved::fault_fixes::{edits, errors_of, Edit};
use crate::proved::file_fixes::literals::is_string;
use crate::proved::file_fixes::mended::sum;
use crate::proved::file_fixes::round_edits::end_after;
use crate::proved::rust_tokens::{tokens, Token};
use crate::proved::rustc_parse_format::ParseMode;
use crate::proved::source_report::{are_after, edits_of, Edit as OwnedEdit, Finding, Help};
use crate::shim::alloc::AllocError;
use crate::shim::prelude::*;
use core::ops::Range;

/// Returns edits with texts of their own.
#[inline(never)]
fn owned_edits(edits: &[Edit<'_>]) -> Result<Vec<OwnedEdit>, AllocError> {
    let mut list = Vec::new();
    for edit in edits {
        list.push(OwnedEdit {
            range: edit.span.start..edit.span.end,
            text: String::from(edit.text),
        });
    }
    Ok(list)
}

/// Returns a fault with these edits, or with none if a fault with this id has none.
#[inline(never)]
fn fault_with(
    id: &'static str,
    title: &str,
    span: &Range<usize>,
    edits: &[Edit<'_>],
) -> Result<Finding, AllocError> {
    Ok(Finding {
        is_warning: false,
        id,
        title: String::from(title),
        span: span.start..span.end,
        labels: Vec::new(),
        notes: Vec::new(),
        help: Some(Help {
            text: String::new(),
            edits: owned_edits(edits)?,
        }),
    })
}

/// Returns the id of the fault that has this edit in its format string.
#[inline]
fn edit_id(edit: &Edit<'_>) -> &'static str {
    match edit.text {
        "" => "raw-identifier",
        ":" => "missing-colon",
        _ => "flag-after-type",
    }
}

/// A format string of a file.
struct FormatString<'t> {
    /// The token that it is.
    token: &'t str,
    /// The byte offset at which that starts.
    start: usize,
    /// Its CRs that stand before LF, as `dropped_crs` returns them.
    crs: Vec<usize>,
    /// The literal with lines that end with LF.
    literal: Literal,
}

/// Returns the byte offset in the file of a byte offset in a literal with lines that end with LF.
/// Returns `Err` if no memory has so many bytes.
fn moved_offset(string: &FormatString<'_>, offset: usize) -> Result<usize, AllocError> {
    sum(string.start, offset_in(string.crs.as_slice(), offset))
}

/// Returns the edit of a file that an edit of a literal with lines that end with LF is. Returns
/// `Err` as [`moved_offset`] does.
#[inline(never)]
fn moved_edit<'e>(string: &FormatString<'_>, edit: &Edit<'e>) -> Result<Edit<'e>, AllocError> {
    let start = moved_offset(string, edit.span.start)?;
    let end = moved_offset(string, edit.span.end)?;
    Ok(Edit {
        span: start..end,
        text: edit.text,
    })
}

/// Adds the fault of an edit of a format string, if the edit is inside this range of the file and
/// not at its end.
#[inline(never)]
fn put_other(
    all: &mut Vec<Finding>,
    string: &FormatString<'_>,
    edit: &Edit<'_>,
    range: &Range<usize>,
) -> Result<(), AllocError> {
    let moved = moved_edit(string, edit)?;
    if range.start <= moved.span.start && moved.span.end < range.end {
        let span = moved.span.start..moved.span.end;
        all.push(fault_with(edit_id(edit), "", &span, &[moved])?);
    }
    Ok(())
}

/// Adds a copy of a fault of a report, with these edits.
fn put_copy(
    all: &mut Vec<Finding>,
    finding: &Finding,
    edits: &[Edit<'_>],
) -> Result<(), AllocError> {
    let title = finding.title.as_str();
    all.push(fault_with(finding.id, title, &finding.span, edits)?);
    Ok(())
}

/// Adds the faults of edits of a format string, as [`put_other`] does.
fn put_others(
    all: &mut Vec<Finding>,
    string: &FormatString<'_>,
    edits: &[Edit<'_>],
    range: &Range<usize>,
) -> Result<(), AllocError> {
    for edit in edits {
        put_other(all, string, edit, range)?;
    }
    Ok(())
}

/// Adds a fault of a report, and the others of its format string, in the order of the source. Its
/// edits are in the range `own`, and those of the others at the byte offset `at` or later.
#[inline(never)]
fn put_string(
    all: &mut Vec<Finding>,
    string: &FormatString<'_>,
    at: usize,
    finding: &Finding,
    own_edits: &[Edit<'_>],
    own: Range<usize>,
) -> Result<(), AllocError> {
    let literal = &string.literal;
    let snippet = String::from(literal.snippet.as_str());
    let errors = errors_of(
        literal.text.as_str(),
        literal.style,
        Some(snippet),
        false,
        ParseMode::Format,
    )?;
    let edits = edits(ParseMode::Format, errors.as_slice())?;
    let front = at..own.start;
    put_others(all, string, edits.as_slice(), &front)?;
    put_copy(all, finding, own_edits)?;
    let back = own.end.saturating_add(1)..usize::MAX;
    put_others(all, string, edits.as_slice(), &back)?;
    Ok(())
}

/// Returns the format string that a token of a file is, or `None` if it is no string literal or
/// this range is not in it.
#[inline(never)]
fn format_string<'t>(
    text: &'t str,
    token: &Token,
    range: &Range<usize>,
) -> Result<Option<FormatString<'t>>, AllocError> {
    if !is_string(token.kind) || range.start < token.span.start || token.span.end < range.end {
        return Ok(None);
    }
    let Some(token_text) = text.get(token.span.start..token.span.end) else {
        return Ok(None);
    };
    let Some(literal) = read_literal(token_text, false)? else {
        return Ok(None);
    };
    Ok(Some(FormatString {
        token: token_text,
        start: token.span.start,
        crs: dropped_crs(token_text)?,
        literal,
    }))
}

/// A place among the tokens and the edits of a file.
#[derive(Clone, Copy)]
struct TokensAhead {
    /// The index of the token of the fault before it, or 0 if there is none.
    index: usize,
    /// Where the last edit before it ends, or 0 if there is none.
    at: usize,
}

/// Returns the index, from `from` on, of the first token that ends after an offset.
#[inline(never)]
fn index_behind(tokens: &[Token], from: usize, offset: usize) -> usize {
    let mut index = from;
    while let Some(token) = tokens.get(index) {
        if token.span.end > offset {
            return index;
        }
        index += 1;
    }
    index
}

/// Adds a fault of a report with these edits, and the others of its format string that can be
/// mended with it from the byte offset `at` on, if its edit is a single one in this token. Returns
/// whether that is so, and `Err` if an allocation fails.
#[inline(never)]
fn put_in_token(
    all: &mut Vec<Finding>,
    text: &str,
    token: &Token,
    at: usize,
    finding: &Finding,
    edits: &[Edit<'_>],
) -> Result<bool, AllocError> {
    if let [own] = edits {
        let range = own.span.start..own.span.end;
        if let Some(string) = format_string(text, token, &range)? {
            put_string(all, &string, at, finding, edits, range)?;
            return Ok(true);
        }
    }
    put_copy(all, finding, edits)?;
    Ok(false)
}

/// Adds a fault of a report, and the others of its format string that can be mended with it.
/// Returns the place after it.
#[inline(never)]
fn put_faults(
    all: &mut Vec<Finding>,
    text: &str,
    tokens: &[Token],
    from: TokensAhead,
    finding: &Finding,
) -> Result<TokensAhead, AllocError> {
    let edits = edits_of(finding)?;
    let list = edits.as_slice();
    let index = index_behind(tokens, from.index, finding.span.start);
    let Some(token) = tokens.get(index) else {
        put_copy(all, finding, list)?;
        return Ok(from);
    };
    if list.is_empty() || !are_after(from.at, list) {
        put_copy(all, finding, list)?;
        return Ok(from);
    }
    let is_whole = put_in_token(all, text, token, from.at, finding, list)?;
    let at = if is_whole {
        token.span.end
    } else {
        end_after(from.at, list)
    };
    Ok(TokensAhead { index, at })
}

/// Returns whether one of these faults has an id of which a format string can have others.
fn may_have_others(findings: &[Finding]) -> bool {
    for finding in findings {
        if matches!(
            finding.id,
            "raw-identifier" | "missing-colon" | "flag-after-type"
        ) {
            return true;
        }
    }
    false
}

/// Returns the faults of a round: those of a report and the others of the same format strings that
/// can be mended with them, or `None` if there are no others.
#[inline(never)]
pub(crate) fn all_faults(
    text: &str,
    findings: &[Finding],
) -> Result<Option<Vec<Finding>>, AllocError> {
    if !may_have_others(findings) {
        return Ok(None);
    }
    let tokens = tokens(text)?;
    let mut all = Vec::new();
    let mut place = TokensAhead { index: 0, at: 0 };
    for finding in findings {
        place = put_faults(&mut all, text, tokens.as_slice(), place, finding)?;
    }
    if all.len() == findings.len() {
        return Ok(None);
    }
    Ok(Some(all))
}
