//! The macros that a file defines and that hand their tokens on, and the faults of their calls.

// Extracted from crates/formatlint/src/own_rows.rt by tools/extract: not to be edited.
// That source has the contracts, and is proved. That this text means the same is only tested.

use crate::proved::asm_lint::appends_newline;
use crate::proved::format_calls::{Row, Table};
use crate::proved::macro_owners::{given_names, own_rows, Given};
use crate::proved::rust_trees::Source;
use crate::proved::source_lint::{file_faults, own_file_faults, OwnMacro};
use crate::proved::source_report::{Options, Report};
use crate::shim::alloc::AllocError;
use crate::shim::prelude::*;

/// The most macros of a file that are read: each call is compared with all of them.
const MOST: usize = 64;

/// The most names that a file gives to macros, if its own macros are read: each call in the
/// definition of one of them is compared with all of them.
const MOST_NAMES: usize = 1024;

/// The macros of a file whose calls are read.
struct OwnMacros<'a> {
    /// How they are read.
    rows: Vec<Row<'a>>,
    /// The same macros.
    macros: Vec<OwnMacro<'a>>,
}

/// Returns how many of these names are of macros whose arms say which argument is the string.
fn rule_count(names: &[Given]) -> usize {
    let mut count = 0usize;
    for given in names {
        if given.rule.is_some() {
            count = count.saturating_add(1);
        }
    }
    count
}

/// Returns those macros of a table that append a newline to their format string, or the others. It
/// leaves `unreachable!` out, whose format string captures no variables in some editions.
#[inline(never)]
fn table_part<'a>(table: &Table<'a>, newline: bool) -> Result<Table<'a>, AllocError> {
    let mut rows = Vec::new();
    for row in &table.rows {
        let name = row.name.as_bytes();
        if name != b"unreachable".as_slice() && appends_newline(name) == newline {
            rows.push(*row);
        }
    }
    Ok(Table { rows })
}

/// Returns the macros of a file that hand their tokens on to those of a table, or none if there are
/// too many: each hands them on only to macros that append a newline, or only to others.
#[inline(never)]
fn own_macros<'a>(text: &'a str, table: &Table<'_>) -> Result<OwnMacros<'a>, AllocError> {
    let mut own = OwnMacros {
        rows: Vec::new(),
        macros: Vec::new(),
    };
    let source = Source::new(text)?;
    let names = given_names(&source, table)?;
    let count = rule_count(&names);
    if count == 0 || count > MOST || names.len() > MOST_NAMES {
        return Ok(own);
    }
    for newline in [false, true] {
        let part = table_part(table, newline)?;
        for row in &own_rows(&source, &names, &part)? {
            own.rows.push(*row);
            own.macros.push(OwnMacro {
                name: row.name,
                appends_newline: newline,
            });
        }
    }
    Ok(own)
}

/// Returns whether a word stands in a text, with no letter or digit of ASCII next to it.
#[inline(never)]
fn has_word(text: &str, word: &str) -> bool {
    let mut is_end = true;
    let mut is_first = true;
    for part in text.split(word) {
        let bytes = part.as_bytes();
        let starts = match bytes.first() {
            Some(byte) => !byte.is_ascii_alphanumeric(),
            None => true,
        };
        if !is_first && is_end && starts {
            return true;
        }
        is_first = false;
        is_end = match bytes.last() {
            Some(byte) => !byte.is_ascii_alphanumeric(),
            None => true,
        };
    }
    false
}

/// Returns the report on a file that also has the calls of its own macros which hand their tokens
/// on, or `None` if it has no such macro.
#[inline(never)]
pub fn own_report(text: &str, options: &Options<'_>) -> Result<Option<Report>, AllocError> {
    if !text.has_text("macro_rules") || !has_word(text, "tt") {
        return Ok(None);
    }
    let OwnMacros { mut rows, macros } = own_macros(text, &options.table)?;
    if macros.is_empty() {
        return Ok(None);
    }
    for row in &options.table.rows {
        rows.push(*row);
    }
    let own_options = Options {
        table: Table { rows },
        is_from_2021: options.is_from_2021,
    };
    let report = own_file_faults(text, &own_options, &macros)?;
    Ok(Some(report))
}

/// Returns the report on a file, with the calls of its own macros which hand their tokens on.
pub fn file_report(text: &str, options: &Options<'_>) -> Result<Report, AllocError> {
    match own_report(text, options)? {
        Some(report) => Ok(report),
        None => file_faults(text, options),
    }
}
