//! The text of a file with what a request changes in it.

// Extracted from crates/formatlint/src/rewrites.rt by tools/extract: not to be edited.
// That source has the contracts, and is proved. That this text means the same is only tested.

use crate::proved::file_fixes::fixes;
use crate::proved::file_inlines::{inlines, package_inlines, CallInlining, FileInlines};
use crate::proved::format_calls::Table;
use crate::proved::macro_owners::{certain_table, Facts};
use crate::proved::source_lint::file_faults;
use crate::proved::source_report::{Options, Report};
use crate::shim::alloc::AllocError;
use crate::shim::prelude::*;

/// What a request changes in files.
#[derive(Clone, Copy)]
pub struct Rewrite {
    /// Whether suggestions are applied.
    pub fixes: bool,
    /// Whether arguments that are variables are moved into format strings.
    pub inlines: bool,
    /// Whether they are in calls with other arguments too.
    pub allows_mixed: bool,
}

/// A file with what a request changes in it.
pub struct RewrittenFile {
    /// The new text, or `None` if it is the old one.
    pub text: Option<String>,
    /// The number of faults and warnings that are fixed.
    pub fixes: usize,
    /// What inlining makes of each call, or nothing if it was not asked for.
    pub calls: Vec<CallInlining>,
    /// Whether the calls that can be inlined are.
    pub has_inlines: bool,
    /// The report on the new text.
    pub report: Report,
}

/// Returns a text with suggestions applied.
#[inline(never)]
fn fix_text(text: &str, options: &Options<'_>) -> Result<RewrittenFile, AllocError> {
    let file_fixes = fixes(text, options)?;
    Ok(RewrittenFile {
        text: file_fixes.text,
        fixes: file_fixes.ids.len(),
        calls: Vec::new(),
        has_inlines: false,
        report: file_fixes.report,
    })
}

/// Returns a file with calls inlined, and nothing fixed.
fn inlined_file(file_inlines: FileInlines) -> RewrittenFile {
    RewrittenFile {
        has_inlines: file_inlines.text.is_some(),
        text: file_inlines.text,
        fixes: 0,
        calls: file_inlines.calls,
        report: file_inlines.report,
    }
}

/// Returns a text with calls inlined.
fn inline_text(
    text: &str,
    options: &Options<'_>,
    rewrite: Rewrite,
) -> Result<RewrittenFile, AllocError> {
    let file_inlines = inlines(text, options, rewrite.allows_mixed)?;
    Ok(inlined_file(file_inlines))
}

/// Returns a text with calls inlined whose macro is for certain that of its row, by the facts of
/// the package.
fn inline_certainly(
    text: &str,
    options: &Options<'_>,
    package_facts: &Facts,
    rewrite: Rewrite,
) -> Result<RewrittenFile, AllocError> {
    let mixed = rewrite.allows_mixed;
    let file_inlines = package_inlines(text, options, package_facts, true, mixed)?;
    Ok(inlined_file(file_inlines))
}

/// Returns a text as it is.
fn unchanged_text(text: &str, options: &Options<'_>) -> Result<RewrittenFile, AllocError> {
    Ok(RewrittenFile {
        text: None,
        fixes: 0,
        calls: Vec::new(),
        has_inlines: false,
        report: file_faults(text, options)?,
    })
}

/// Returns a text with what a request changes in it: first its suggestions are applied, and then
/// calls are inlined.
#[inline(never)]
pub fn apply_rewrite(
    text: &str,
    options: &Options<'_>,
    rewrite: Rewrite,
) -> Result<RewrittenFile, AllocError> {
    if !rewrite.fixes {
        return if rewrite.inlines {
            inline_text(text, options, rewrite)
        } else {
            unchanged_text(text, options)
        };
    }
    let fixed_file = fix_text(text, options)?;
    if !rewrite.inlines {
        return Ok(fixed_file);
    }
    let mut outcome = match &fixed_file.text {
        Some(text) => inline_text(text.as_str(), options, rewrite)?,
        None => inline_text(text, options, rewrite)?,
    };
    outcome.fixes = fixed_file.fixes;
    if outcome.text.is_none() {
        outcome.text = fixed_file.text;
    }
    Ok(outcome)
}

/// Returns whether a comment, or white space outside of ASCII, may stand between the name of a
/// macro and a `!` after this text.
#[inline(never)]
fn may_hide_name(front: &str) -> bool {
    let trimmed = front.trim_end();
    if trimmed.ends_with("*/") || trimmed.chars().next_back().map_or(false, |c| !c.is_ascii()) {
        return true;
    }
    match front.rsplit_once('\n') {
        Some((_, indent)) if indent.trim_end().is_empty() => {
            let (_, line) = trimmed.rsplit_once('\n').unwrap_or(("", trimmed));
            line.has_text("//")
        }
        _ => false,
    }
}

/// Returns whether a table has a row of this name.
fn has_row(table: &Table<'_>, name: &str) -> bool {
    for row in &table.rows {
        if row.name == name {
            return true;
        }
    }
    false
}

/// Returns whether a text before a `!` ends with a name of a table that is not in `certain`.
fn ends_with_other(front: &str, table: &Table<'_>, certain: &Table<'_>) -> bool {
    for row in &table.rows {
        if front.ends_with(row.name) && !has_row(certain, row.name) {
            return true;
        }
    }
    false
}

/// Returns whether a text may call a macro of a table that is not in `certain`, which has some of
/// its rows.
pub fn may_call_others(text: &str, table: &Table<'_>, certain: &Table<'_>) -> bool {
    for front in text.split('!') {
        if may_hide_name(front) || ends_with_other(front.trim_end(), table, certain) {
            return true;
        }
    }
    false
}

/// Returns a text with suggestions applied to calls whose macro is for certain that of its row, by
/// the facts of the package, with a report on all calls.
#[inline(never)]
fn fix_certainly(
    text: &str,
    options: &Options<'_>,
    package_facts: &Facts,
) -> Result<RewrittenFile, AllocError> {
    let file_facts = Facts::new().with_file(text)?;
    let certain_options = Options {
        table: certain_table(&options.table, package_facts, &file_facts)?,
        is_from_2021: options.is_from_2021,
    };
    let fixed_file = fix_text(text, &certain_options)?;
    let report = match &fixed_file.text {
        Some(text) => file_faults(text.as_str(), options)?,
        None => file_faults(text, options)?,
    };
    Ok(RewrittenFile {
        text: fixed_file.text,
        fixes: fixed_file.fixes,
        calls: fixed_file.calls,
        has_inlines: fixed_file.has_inlines,
        report,
    })
}

/// Returns a text with what a request changes in it, as [`apply_rewrite`] does, but only in calls
/// whose macro is for certain that of its row, by the facts of the package. The report is on all
/// calls.
#[inline(never)]
pub fn apply_certainly(
    text: &str,
    options: &Options<'_>,
    package_facts: &Facts,
    rewrite: Rewrite,
) -> Result<RewrittenFile, AllocError> {
    if !rewrite.fixes {
        return if rewrite.inlines {
            inline_certainly(text, options, package_facts, rewrite)
        } else {
            unchanged_text(text, options)
        };
    }
    let fixed_file = fix_certainly(text, options, package_facts)?;
    if !rewrite.inlines {
        return Ok(fixed_file);
    }
    let mut outcome = match &fixed_file.text {
        Some(text) => inline_certainly(text.as_str(), options, package_facts, rewrite)?,
        None => inline_certainly(text, options, package_facts, rewrite)?,
    };
    outcome.fixes = fixed_file.fixes;
    if outcome.text.is_none() {
        outcome.text = fixed_file.text;
    }
    Ok(outcome)
}
