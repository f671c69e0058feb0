//! The listing of an input as JSON.

// Extracted from crates/listing_json/src/listing.rt by tools/extract: not to be edited.
// That source has the contracts, and is proved. That this text means the same is only tested.

use super::calls::put_calls;
use super::report::put_report;
use crate::proved::piece_listing::literal::{literal_text, strip_newline, LiteralText};
use crate::proved::piece_listing::verdict::RunFault;
use crate::proved::piece_listing::{has_entries, report_for, task_of, Task};
use crate::proved::placeholder_check::{uses_of, Report, Uses};
use crate::shim::alloc::AllocError;
use crate::shim::parser::{read_all, Parser, Reading};
use crate::shim::prelude::*;

/// The most bytes that an input may have.
const LIMIT: usize = 1_048_576;

/// A listing as JSON.
pub struct Listing {
    /// The lines in UTF-8, each with its line end.
    pub bytes: Vec<u8>,
    /// Whether there is a line that is not of a piece.
    pub has_ends: bool,
}

/// Returns a copy of a literal, if there is one.
fn snippet_of(literal: Option<&str>) -> Result<Option<String>, AllocError> {
    match literal {
        Some(text) => Ok(Some(String::from(text))),
        None => Ok(None),
    }
}

/// Returns the arguments that the placeholders of a text use, if the task has a list of arguments.
#[inline(never)]
fn uses_in<'a>(
    text: &'a str,
    style: Option<usize>,
    snippet: Option<String>,
    task: Task<'_>,
) -> Result<Uses<'a>, AllocError> {
    if task.arguments.is_none() {
        return Ok(Uses::new());
    }
    let Reading { pieces, parser: _ } = read_all(text, style, snippet, false, task.mode)?;
    uses_of(pieces.as_slice())
}

/// Returns the report on the arguments that are missing or unused in a text.
fn report_of<'a>(
    text: &'a str,
    style: Option<usize>,
    snippet: Option<String>,
    task: Task<'a>,
) -> Result<Report<'a>, AllocError> {
    let uses = uses_in(text, style, snippet, task)?;
    report_for(&uses, task.arguments)
}

/// Returns the lines of the calls of a parser and of a report.
#[inline(never)]
fn list_calls(parser: &mut Parser<'_>, report: &Report<'_>) -> Result<Listing, AllocError> {
    let mut bytes = Vec::new();
    let has_faults = put_calls(&mut bytes, parser)?;
    put_report(&mut bytes, report)?;
    Ok(Listing {
        bytes,
        has_ends: has_faults || has_entries(report),
    })
}

/// Returns the listing of a text, with the literal that it is in if there is one.
#[inline(never)]
fn list_source(
    text: &str,
    style: Option<usize>,
    literal: Option<&str>,
    task: Task<'_>,
) -> Result<Listing, AllocError> {
    let report = report_of(text, style, snippet_of(literal)?, task)?;
    let snippet = snippet_of(literal)?;
    let mut parser = Parser::new(text, style, snippet, false, task.mode)?;
    list_calls(&mut parser, &report)
}

/// Returns the listing of an input that is to be a string literal, perhaps with a newline after it.
/// Returns `Err` if the input is not a string literal or an allocation fails.
#[inline(never)]
fn list_literal(input: &str, task: Task<'_>) -> Result<Listing, RunFault> {
    let literal = strip_newline(input);
    let Some(LiteralText { text, style }) = literal_text(literal)? else {
        return Err(RunFault::NotLiteral);
    };
    Ok(list_source(text.as_str(), style, Some(literal), task)?)
}

/// Returns the listing of a text, which is a string literal if the task says so. Returns `Err` if
/// it is to be one and is none, or if an allocation fails.
fn list_text(text: &str, task: Task<'_>) -> Result<Listing, RunFault> {
    if task.is_literal {
        list_literal(text, task)
    } else {
        Ok(list_source(text, None, None, task)?)
    }
}

/// Returns the listing of an input as JSON, by the command-line arguments of the program
/// `formatread`: a line for each piece, each fault and each entry of the report on missing and
/// unused arguments. docs/PROGRAMS.md has the keys of the objects. A fault comes after the piece of
/// the call that finds it.
///
/// The input may have at most 1,048,576 bytes. Returns `Err` if the words are invalid, if the input
/// is too long, not UTF-8 or, with `--literal`, not a string literal, or if an allocation fails
/// (`RunFault`, but neither `Read` nor `Write`).
#[inline(never)]
pub fn list(input: &[u8], words: &[String]) -> Result<Listing, RunFault> {
    let Some(task) = task_of(words) else {
        return Err(RunFault::Words);
    };
    if input.len() > LIMIT {
        return Err(RunFault::TooLong);
    }
    let Ok(text) = core::str::from_utf8(input) else {
        return Err(RunFault::NotText);
    };
    list_text(text, task)
}
