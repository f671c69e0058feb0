//! The check of a call.

// Extracted from crates/call_faults/src/checker.rt by tools/extract: not to be edited.
// That source has the contracts, and is proved. That this text means the same is only tested.

use crate::proved::call_faults::arguments::{arguments_of, FormatArgument};
use crate::proved::call_faults::comparison::{compare, indices_of};
use crate::proved::call_faults::faults::CallFault;
use crate::proved::call_faults::lookups::lookups_of;
use crate::proved::call_faults::spots::counts_before;
use crate::proved::rustc_parse_format::{Fault, ParseMode, Piece};
use crate::proved::text_faults::text_fault;
use crate::shim::alloc::AllocError;
use crate::shim::parser::{read_all, Parser, Reading};
use crate::shim::prelude::*;

/// The format string of a call.
#[derive(Clone, Copy, Debug, Eq, PartialEq)]
pub struct FormatString<'a> {
    /// The text that it stands for.
    pub text: &'a str,
    /// `None` for an ordinary literal, and `Some` of the number of hashes for a raw one.
    pub style: Option<usize>,
    /// The literal as it is in the source, if it is known.
    pub snippet: Option<&'a str>,
    /// Whether the text ends in a newline that the source does not have, as that of `println!`.
    pub appended_newline: bool,
    /// Whether a name that no argument has is a variable, as it is where the literal stands in the
    /// call itself.
    pub captures_variables: bool,
}

/// A call that was checked.
pub struct CallReport<'a> {
    /// The arguments that are given.
    pub arguments: &'a [FormatArgument<'a>],
    /// The indices of the arguments that count: of those whose name is not that of an earlier one.
    /// Empty if an argument without a name after one with a name ended the check.
    pub indices: Vec<usize>,
    /// The pieces of the format string.
    pub pieces: Vec<Piece<'a>>,
    /// Of each piece, how many placeholders stand before it.
    pub counts: Vec<usize>,
    /// The parser after them, which has the places of the placeholders.
    pub parser: Parser<'a>,
    /// The faults, in the order in which rustc reports them.
    pub faults: Vec<CallFault<'a>>,
}

/// Returns a text as a string.
fn owned_string(text: Option<&str>) -> Result<Option<String>, AllocError> {
    match text {
        None => Ok(None),
        Some(text) => Ok(Some(String::from(text))),
    }
}

/// Returns the fault of a format string that rustc shows, or `None` if it is in the grammar.
#[inline(never)]
fn fault_of<'a>(string: FormatString<'a>) -> Result<Option<Fault<'a>>, AllocError> {
    let snippet = owned_string(string.snippet)?;
    let mut parser = Parser::new(
        string.text,
        string.style,
        snippet,
        string.appended_newline,
        ParseMode::Format,
    )?;
    text_fault(&mut parser)
}

/// Returns the faults of a call whose format string has these pieces, and puts the indices of
/// the arguments that count into `indices`. `is_read` is whether the string is in the grammar.
#[inline(never)]
fn faults_of<'a>(
    string: FormatString<'a>,
    is_read: bool,
    pieces: &[Piece<'a>],
    call_arguments: &[FormatArgument<'a>],
    indices: &mut Vec<usize>,
) -> Result<Vec<CallFault<'a>>, AllocError> {
    let mut faults = Vec::new();
    let Some(mut arguments) = arguments_of(&mut faults, call_arguments)? else {
        return Ok(faults);
    };
    *indices = indices_of(&arguments.list)?;
    if !is_read {
        if let Some(fault) = fault_of(string)? {
            faults.push(CallFault::Text(fault));
        }
        return Ok(faults);
    }
    let lookups = lookups_of(pieces)?;
    compare(
        &mut faults,
        string.captures_variables,
        &mut arguments,
        call_arguments.len(),
        &lookups,
    )?;
    Ok(faults)
}

/// Checks a call of a macro that takes a format string: reads the string, compares its placeholders
/// with the arguments that are given, in the order of the source, and returns its pieces and the
/// faults, as rustc reports them. A placeholder's spans are those of the parser.
///
/// The number of hashes, the length of the text in bytes, and 2 must together fit into a `usize`.
#[inline(never)]
pub fn call_faults<'a>(
    string: FormatString<'a>,
    arguments: &'a [FormatArgument<'a>],
) -> Result<CallReport<'a>, AllocError> {
    let snippet = owned_string(string.snippet)?;
    let Reading { pieces, parser } = read_all(
        string.text,
        string.style,
        snippet,
        string.appended_newline,
        ParseMode::Format,
    )?;
    let is_read = parser.errors().is_empty();
    let mut indices = Vec::new();
    let faults = faults_of(string, is_read, &pieces, arguments, &mut indices)?;
    let counts = counts_before(&pieces)?;
    Ok(CallReport {
        arguments,
        indices,
        pieces,
        counts,
        parser,
        faults,
    })
}
