//! The ids and the titles of faults, in rustc's words. A function whose name begins with `put_`
//! appends to `out`.

// Extracted from crates/call_faults/src/titles.rt by tools/extract: not to be edited.
// That source has the contracts, and is proved. That this text means the same is only tested.

use crate::proved::call_faults::arguments::FormatArgument;
use crate::proved::call_faults::checker::CallReport;
use crate::proved::call_faults::faults::CallFault;
use crate::proved::placeholder_check::check;
use crate::proved::rustc_parse_format::{Count, Fault, Piece, Position};
use crate::shim::alloc::AllocError;
use crate::shim::itoa::Buffer;
use crate::shim::prelude::*;

impl CallFault<'_> {
    /// Returns the id of the fault in kebab case, as `unused-argument`: the same for all faults of
    /// a kind. A fault of the format string has the id of its [`Fault`]. Does not allocate.
    #[inline(never)]
    pub fn id(&self) -> &'static str {
        match self {
            CallFault::PositionalAfterNamed { .. } => "positional-after-named",
            CallFault::RepeatedName { .. } => "repeated-name",
            CallFault::Text(fault) => fault.id(),
            CallFault::MissingName { .. } => "missing-name",
            CallFault::UnknownTrait { .. } => "unknown-trait",
            CallFault::MissingArguments(_) => "missing-argument",
            CallFault::UnusedArguments(_) => "unused-argument",
            CallFault::RedundantArguments(_) => "redundant-argument",
            CallFault::NameUsedByIndex { .. } => "name-used-by-index",
        }
    }
}

/// Adds a number in decimal digits.
pub(crate) fn put_number(out: &mut String, number: usize) -> Result<(), AllocError> {
    let mut digits = Buffer::new();
    out.push_str(digits.format(number));
    Ok(())
}

/// Adds how many arguments are given.
#[inline(never)]
fn put_count(out: &mut String, count: usize) -> Result<(), AllocError> {
    if count == 0 {
        out.push_str("no arguments were given");
        return Ok(());
    }
    if count == 1 {
        out.push_str("there is 1 argument");
        return Ok(());
    }
    out.push_str("there are ");
    put_number(out, count)?;
    out.push_str(" arguments");
    Ok(())
}

/// Adds a noun, in the plural unless there is one.
pub(crate) fn put_noun(out: &mut String, noun: &str, count: usize) -> Result<(), AllocError> {
    out.push_str(noun);
    if count != 1 {
        out.push('s');
    }
    Ok(())
}

/// Adds the text between a number and those after it.
fn put_separator(out: &mut String, others: &[usize]) -> Result<(), AllocError> {
    match others {
        [] => {}
        [_] => out.push_str(" and "),
        _ => out.push_str(", "),
    }
    Ok(())
}

/// Adds numbers one after the other.
#[inline(never)]
fn put_numbers(out: &mut String, numbers: &[usize]) -> Result<(), AllocError> {
    let mut rest = numbers;
    while let Some((first, others)) = rest.split_first() {
        put_number(out, *first)?;
        put_separator(out, others)?;
        rest = others;
    }
    Ok(())
}

/// Adds a name between backquotes.
fn put_quoted(out: &mut String, name: &str) -> Result<(), AllocError> {
    out.push('`');
    out.push_str(name);
    out.push('`');
    Ok(())
}

/// Adds a text and a name between backquotes.
fn put_named(out: &mut String, text: &str, name: &str) -> Result<(), AllocError> {
    out.push_str(text);
    put_quoted(out, name)?;
    Ok(())
}

/// Adds a name between backquotes, between two texts.
pub(crate) fn put_name_between(
    out: &mut String,
    prefix: &str,
    name: &str,
    suffix: &str,
) -> Result<(), AllocError> {
    put_named(out, prefix, name)?;
    out.push_str(suffix);
    Ok(())
}

/// Returns whether a width or a precision is an argument by a number that is written.
#[inline]
fn is_counted(count: &Count<'_>) -> bool {
    matches!(count, Count::CountIsParam(_))
}

/// Returns whether a position is a number that is written.
#[inline]
fn is_number(position: &Position<'_>) -> bool {
    matches!(position, Position::ArgumentIs(_))
}

/// Returns whether a piece refers to an argument by a number that is written.
#[inline(never)]
fn has_number(piece: &Piece<'_>) -> bool {
    match piece {
        Piece::Lit(_) => false,
        Piece::NextArgument(argument) => {
            is_number(&argument.position)
                || is_counted(&argument.format.width)
                || is_counted(&argument.format.precision)
        }
    }
}

/// Returns whether pieces refer to an argument by a number that is written.
#[inline]
pub(crate) fn have_numbers(pieces: &[Piece<'_>]) -> bool {
    for piece in pieces {
        if has_number(piece) {
            return true;
        }
    }
    false
}

/// Adds the title of numbers that are too large, where `count` arguments are given.
#[inline(never)]
fn put_numbers_title(out: &mut String, numbers: &[usize], count: usize) -> Result<(), AllocError> {
    out.push_str("invalid reference to positional ");
    put_noun(out, "argument", numbers.len())?;
    out.push(' ');
    put_numbers(out, numbers)?;
    out.push_str(" (");
    put_count(out, count)?;
    out.push(')');
    Ok(())
}

/// Adds the title of too few arguments, where `count` are given and the placeholders take `total`.
fn put_few_title(out: &mut String, total: usize, count: usize) -> Result<(), AllocError> {
    put_number(out, total)?;
    put_noun(out, " positional argument", total)?;
    out.push_str(" in format string, but ");
    put_count(out, count)?;
    Ok(())
}

/// Returns the name of an argument, or an empty text if it has none.
pub(crate) fn name_of<'a>(arguments: &[FormatArgument<'a>], index: usize) -> &'a str {
    match arguments.get(index) {
        Some(argument) => match argument.name {
            Some(name) => name,
            None => "",
        },
        None => "",
    }
}

/// Returns whether an argument has a name.
fn is_named(arguments: &[FormatArgument<'_>], index: usize) -> bool {
    match arguments.get(index) {
        Some(argument) => argument.name.is_some(),
        None => false,
    }
}

/// Returns the label of an argument that is not used.
#[inline]
pub(crate) fn never_used(arguments: &[FormatArgument<'_>], index: usize) -> &'static str {
    if is_named(arguments, index) {
        "named argument never used"
    } else {
        "argument never used"
    }
}

/// Returns the title of arguments that are not used.
fn unused_title(arguments: &[FormatArgument<'_>], unused_indices: &[usize]) -> &'static str {
    match unused_indices {
        [index] => never_used(arguments, *index),
        _ => "multiple unused formatting arguments",
    }
}

/// Adds the title of a fault of the format string.
fn put_text_title(out: &mut String, fault: &Fault<'_>) -> Result<(), AllocError> {
    let error = fault.error()?;
    out.push_str("invalid format string: ");
    out.push_str(&error.description);
    Ok(())
}

/// Adds the title of missing arguments.
#[inline(never)]
fn put_missing(out: &mut String, call: &CallReport<'_>) -> Result<(), AllocError> {
    let count = call.indices.len();
    if have_numbers(&call.pieces) {
        let report = check(&call.pieces, count, &[])?;
        put_numbers_title(out, &report.missing_index, count)?;
        return Ok(());
    }
    put_few_title(out, call.parser.curarg(), count)?;
    Ok(())
}

impl<'a> CallReport<'a> {
    /// Adds the title of one of the faults to the end of `out`, as rustc has it.
    #[inline(never)]
    pub(crate) fn put_title(
        &self,
        out: &mut String,
        fault: &CallFault<'a>,
    ) -> Result<(), AllocError> {
        match fault {
            CallFault::PositionalAfterNamed { .. } => {
                out.push_str("positional arguments cannot follow named arguments");
                Ok(())
            }
            CallFault::RepeatedName { index, .. } => put_named(
                out,
                "duplicate argument named ",
                name_of(self.arguments, *index),
            ),
            CallFault::Text(fault) => put_text_title(out, fault),
            CallFault::MissingName { name, .. } => {
                put_named(out, "there is no argument named ", name)?;
                Ok(())
            }
            CallFault::UnknownTrait { ty, .. } => {
                put_named(out, "unknown format trait ", ty)?;
                Ok(())
            }
            CallFault::MissingArguments(_) => {
                put_missing(out, self)?;
                Ok(())
            }
            CallFault::UnusedArguments(unused_indices) => {
                out.push_str(unused_title(self.arguments, unused_indices));
                Ok(())
            }
            CallFault::RedundantArguments(redundant_indices) => {
                put_noun(out, "redundant argument", redundant_indices.len())
            }
            CallFault::NameUsedByIndex { index, .. } => put_name_between(
                out,
                "named argument ",
                name_of(self.arguments, *index),
                " is not used by name",
            ),
        }
    }
}
