//! The report on missing and unused arguments, and its lines.

// Extracted from crates/piece_listing/src/report_lines.rt by tools/extract: not to be edited.
// That source has the contracts, and is proved. That this text means the same is only tested.

use super::arguments::{names, GivenArguments};
use super::listing::put_quoted;
use super::numbers::put_number;
use crate::proved::placeholder_check::{check_uses, Report, Uses};
use crate::shim::alloc::AllocError;
use crate::shim::prelude::*;

/// Returns the report on the arguments that are used if these are given, or a report without
/// entries for `None`.
#[inline(never)]
pub fn report_for<'a>(
    all_uses: &Uses<'a>,
    arguments: Option<GivenArguments<'a>>,
) -> Result<Report<'a>, AllocError> {
    match arguments {
        Some(arguments) => {
            let names = names(arguments.names)?;
            check_uses(all_uses, arguments.positional, names.as_slice())
        }
        None => Ok(Report {
            missing_index: Vec::new(),
            missing_name: Vec::new(),
            unused_index: Vec::new(),
            unused_name: Vec::new(),
        }),
    }
}

/// Returns whether a report has an entry.
#[inline(never)]
pub fn has_entries(report: &Report<'_>) -> bool {
    report.missing_index.len() > 0
        || report.missing_name.len() > 0
        || report.unused_index.len() > 0
        || report.unused_name.len() > 0
}

/// Adds a line for each number, which begins with `label`.
#[inline(always)]
fn put_numbers(out: &mut String, label: &str, numbers: &[usize]) -> Result<(), AllocError> {
    for n in numbers {
        put_number(out, label, *n)?;
        out.push('\n');
    }
    Ok(())
}

/// Adds the line of a name, which begins with `label`.
fn put_name(out: &mut String, label: &str, name: &str) -> Result<(), AllocError> {
    out.push_str(label);
    put_quoted(out, name)?;
    out.push('\n');
    Ok(())
}

/// Adds a line for each name, which begins with `label`.
fn put_names(out: &mut String, label: &str, names: &[&str]) -> Result<(), AllocError> {
    for name in names {
        put_name(out, label, name)?;
    }
    Ok(())
}

/// Adds a line for each entry of a report.
#[inline(never)]
pub fn put_report(out: &mut String, report: &Report<'_>) -> Result<(), AllocError> {
    put_numbers(out, "missing index ", report.missing_index.as_slice())?;
    put_names(out, "missing name ", report.missing_name.as_slice())?;
    put_numbers(out, "unused index ", report.unused_index.as_slice())?;
    put_names(out, "unused name ", report.unused_name.as_slice())?;
    Ok(())
}
