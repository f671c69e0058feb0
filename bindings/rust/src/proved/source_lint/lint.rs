//! The faults of the format strings of a file.

// Extracted from crates/source_lint/src/lint.rt by tools/extract: not to be edited.
// That source has the contracts, and is proved. That this text means the same is only tested.

use crate::proved::asm_lint::read_attributes;
use crate::proved::format_calls::{calls, next_part, Call, Part, Table};
use crate::proved::rust_trees::{Balance, FileBreak, Source, Tokens};
use crate::proved::source_lint::macros::{macro_names, File, OwnMacro};
use crate::proved::source_lint::readings::read_call;
use crate::proved::source_report::{CallReading, Finding, Options, Report};
use crate::shim::alloc::AllocError;
use crate::shim::prelude::*;

/// The readings of the calls of a file so far, and the findings in these calls.
pub struct Readings {
    /// How much of each call was read.
    pub calls: Vec<CallReading>,
    /// The faults of these calls, one call after the other.
    pub findings: Vec<Finding>,
}

/// Reads calls of a part of a file, one after the other, and adds how much of each is read and its
/// findings.
pub fn read_calls<'a>(
    readings: &mut Readings,
    file: File<'_, 'a>,
    part: &Part<'a>,
    calls: &[Call],
) -> Result<(), AllocError> {
    let mut rest = calls;
    while let Some((call, others)) = rest.split_first() {
        let reading = read_call(&mut readings.findings, file, part, call)?;
        readings.calls.push(reading);
        rest = others;
    }
    Ok(())
}

/// Reads the calls of a file, part by part, and adds all its tokens to `balance`.
fn read_file(
    file: File<'_, '_>,
    table: &Table<'_>,
    balance: &mut Balance,
) -> Result<Readings, AllocError> {
    let mut readings = Readings {
        calls: Vec::new(),
        findings: Vec::new(),
    };
    let mut rest = Tokens::new(file.text);
    while let Some(source) = next_part(&mut rest, table, balance)? {
        let part = Part::new(source)?;
        let calls = calls(part.source(), table)?;
        read_calls(&mut readings, file, &part, &calls)?;
    }
    Ok(readings)
}

/// Adds the findings in the texts of the attributes of a file.
fn put_attributes(findings: &mut Vec<Finding>, text: &str) -> Result<(), AllocError> {
    if !text.has_text("on_unimplemented") {
        return Ok(());
    }
    let source = Source::new(text)?;
    read_attributes(findings, text, &source)?;
    Ok(())
}

/// Returns the report on a file whose calls have these readings, and that breaks there or not: the
/// findings in its attributes follow those in its calls.
pub(crate) fn report_with(
    text: &str,
    readings: Readings,
    first_break: Option<FileBreak>,
) -> Result<Report, AllocError> {
    let mut all_readings = readings;
    put_attributes(&mut all_readings.findings, text)?;
    Ok(Report {
        calls: all_readings.calls,
        findings: all_readings.findings,
        first_break,
    })
}

/// Returns the report on a file whose calls have these readings, and whose tokens were all added to
/// `balance`.
#[inline]
pub fn report_on(text: &str, readings: Readings, balance: Balance) -> Result<Report, AllocError> {
    let first_break = balance.first_break();
    report_with(text, readings, first_break)
}

/// Reads a source file as [`file_faults`] does, and also its calls of these macros, which it
/// defines and the table has.
pub fn own_file_faults(
    text: &str,
    options: &Options<'_>,
    own_macros: &[OwnMacro<'_>],
) -> Result<Report, AllocError> {
    let names = macro_names(text)?;
    let file = File {
        text,
        macros: &names,
        own_macros,
        is_from_2021: options.is_from_2021,
    };
    let mut balance = Balance::new();
    let readings = read_file(file, &options.table, &mut balance)?;
    report_on(text, readings, balance)
}

/// Reads a source file, and returns the faults of its calls of macros that take a format string or
/// templates of assembly, and then those of the texts of its attributes. No call of a macro that
/// the file defines is read.
/// Lines may end with LF or CRLF, and a byte order mark may stand at the start.
#[inline]
pub fn file_faults(text: &str, options: &Options<'_>) -> Result<Report, AllocError> {
    own_file_faults(text, options, &[])
}
