//! The lines that are written to standard error where there is no answer.

// Extracted from crates/lint_program/src/messages.rt by tools/extract: not to be edited.
// That source has the contracts, and is proved. That this text means the same is only tested.

use crate::proved::literal_faults::LiteralFault;
use crate::proved::piece_listing::verdict::RunFault;
use crate::proved::rust_trees::{place_at, Place};
use crate::proved::shown_text::{put_shown, Kind};
use crate::shim::alloc::AllocError;
use crate::shim::itoa::Buffer;
use crate::shim::prelude::*;

/// Returns the words of the system in the text of an error of reading or writing, without the
/// number that std adds.
pub fn system_words(text: &str) -> &str {
    match text.split_once(" (os error ") {
        Some((words, _)) => words,
        None => text,
    }
}

/// Appends the start of a line: the name of the program and the path.
fn put_opening(out: &mut String, path: &str) -> Result<(), AllocError> {
    out.push_str("formatlint: ");
    put_shown(out, Kind::Line, path)?;
    out.push_str(":");
    Ok(())
}

/// Returns the reason why there is no answer. For a read or a write that failed, `words` has the
/// words of the system, if it has any.
#[inline(never)]
fn reason<'a>(fault: RunFault, words: &'a str) -> &'a str {
    match fault {
        RunFault::Read if words.is_empty() => "reading failed",
        RunFault::Write if words.is_empty() => "writing failed",
        RunFault::Read | RunFault::Write => words,
        RunFault::Words => "invalid arguments",
        RunFault::TooLong => "longer than 1048576 bytes",
        RunFault::NotText => "not UTF-8",
        RunFault::NotLiteral => "not a string literal",
        RunFault::Memory => "out of memory",
    }
}

/// Appends the line that says why there is no answer for the input with this path. For a read or a
/// write that failed `words` has the words of the system, if it has any.
#[inline(never)]
pub fn put_failure(
    out: &mut String,
    path: &str,
    fault: RunFault,
    words: &str,
) -> Result<(), AllocError> {
    put_opening(out, path)?;
    out.push_str(" ");
    put_shown(out, Kind::Line, reason(fault, words))?;
    out.push_str("\n");
    Ok(())
}

/// Appends a number in decimal digits.
fn put_number(out: &mut String, number: usize) -> Result<(), AllocError> {
    let mut buffer = Buffer::new();
    out.push_str(buffer.format(number));
    Ok(())
}

/// Appends a place: the line, a colon and the column.
fn put_place(out: &mut String, place: Place) -> Result<(), AllocError> {
    put_number(out, place.line)?;
    out.push_str(":");
    put_number(out, place.column)?;
    Ok(())
}

/// Appends the lines that say why the file with this path holds no string literal, at which place,
/// and which option reads it as a text.
#[inline(never)]
pub fn put_not_literal(
    out: &mut String,
    path: &str,
    file: &str,
    fault: &LiteralFault,
) -> Result<(), AllocError> {
    put_opening(out, path)?;
    put_place(out, place_at(file, fault.offset))?;
    out.push_str(": ");
    fault.kind.put_message(out)?;
    out.push_str("\n  = help: with --text the input is read as it stands\n");
    Ok(())
}

/// Appends the line that says why the file with this path is not read from a place on.
#[inline(never)]
pub fn put_place_failure(
    out: &mut String,
    path: &str,
    place: Place,
    words: &str,
) -> Result<(), AllocError> {
    put_opening(out, path)?;
    put_place(out, place)?;
    out.push_str(": ");
    put_shown(out, Kind::Line, words)?;
    out.push_str("\n");
    Ok(())
}
