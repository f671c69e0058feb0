//! The listing of an input in UTF-8.

// Extracted from crates/piece_listing/src/input.rt by tools/extract: not to be edited.
// That source has the contracts, and is proved. That this text means the same is only tested.

use super::arguments::GivenArguments;
use super::calls::put_calls;
use super::listing::put_faults;
use super::literal::{literal_text, strip_newline, LiteralText};
use super::report_lines::{has_entries, put_report, report_for};
use super::task::Task;
use super::verdict::RunFault;
use crate::proved::placeholder_check::{Report, Uses};
use crate::proved::rustc_parse_format::ParseError;
use crate::shim::alloc::AllocError;
use crate::shim::parser::Parser;
use crate::shim::prelude::*;

/// The listing of an input.
pub struct Listing {
    /// The lines, each with its line end.
    pub lines: String,
    /// Whether there is a line that is not of a piece.
    pub has_ends: bool,
}

/// Appends the lines of errors and of a report. Returns whether there are any, and `Err` if an
/// allocation fails.
fn put_ends(
    lines: &mut String,
    errors: &[ParseError],
    report: &Report<'_>,
) -> Result<bool, AllocError> {
    put_faults(lines, errors)?;
    put_report(lines, report)?;
    Ok(errors.len() > 0 || has_entries(report))
}

/// Returns the listing of the pieces up to the first call of a parser that returns `None`, with the
/// report on the arguments that are given.
#[inline(never)]
fn list_calls<'a>(
    parser: &mut Parser<'a>,
    arguments: Option<GivenArguments<'a>>,
) -> Result<Listing, AllocError> {
    let mut lines = String::new();
    let mut uses = Uses::new();
    put_calls(&mut lines, &mut uses, arguments.is_some(), parser)?;
    let report = report_for(&uses, arguments)?;
    let has_ends = put_ends(&mut lines, parser.errors(), &report)?;
    Ok(Listing { lines, has_ends })
}

/// Reads a text with a parser, and returns its listing.
fn list_source(
    text: &str,
    style: Option<usize>,
    snippet: Option<String>,
    task: Task<'_>,
) -> Result<Listing, AllocError> {
    let mut parser = Parser::new(text, style, snippet, false, task.mode)?;
    list_calls(&mut parser, task.arguments)
}

/// Returns the listing of the text that a literal stands for.
fn list_text_of(
    literal: &str,
    text: &str,
    style: Option<usize>,
    task: Task<'_>,
) -> Result<Listing, AllocError> {
    let snippet = String::from(literal);
    list_source(text, style, Some(snippet), task)
}

/// Returns the listing of the text that the input stands for as a string literal, perhaps with a
/// newline after it, as editors and shells end a line. Returns `Err` if the input is not a string
/// literal or an allocation fails.
#[inline(never)]
fn list_literal(input: &str, task: Task<'_>) -> Result<Listing, RunFault> {
    let literal = strip_newline(input);
    let Some(LiteralText { text, style }) = literal_text(literal)? else {
        return Err(RunFault::NotLiteral);
    };
    Ok(list_text_of(literal, text.as_str(), style, task)?)
}

/// Returns the listing of an input. Returns `Err` if the task needs a string literal and the input
/// is none, or if an allocation fails.
pub fn list_input(input: &str, task: Task<'_>) -> Result<Listing, RunFault> {
    if task.is_literal {
        list_literal(input, task)
    } else {
        Ok(list_source(input, None, None, task)?)
    }
}
