//! The errors of all calls of a parser.

// Extracted from crates/fault_fixes/src/errors.rt by tools/extract: not to be edited.
// That source has the contracts, and is proved. That this text means the same is only tested.

use crate::proved::rustc_parse_format::{Argument, Fault, ParseError, ParseMode};
use crate::shim::alloc::AllocError;
use crate::shim::parser::Parser;
use crate::shim::prelude::*;

/// Errors in the order of a parser. None is moved where one is put before the others.
struct Errors {
    /// The errors that were put before all others: the last one is the first of all.
    front_errors: Vec<ParseError>,
    /// The errors after these.
    back_errors: Vec<ParseError>,
}

/// Adds the errors of faults.
#[inline(never)]
fn add_each(errors: &mut Errors, faults: &[Fault<'_>]) -> Result<(), AllocError> {
    for fault in faults {
        let error = fault.error()?;
        if fault.is_front() {
            errors.front_errors.push(error);
        } else {
            errors.back_errors.push(error);
        }
    }
    Ok(())
}

/// Makes a call of a parser, and adds the errors of its faults. `faults` is empty before and after
/// the call.
fn add_next<'a>(
    errors: &mut Errors,
    parser: &mut Parser<'a>,
    argument: &mut Argument<'a>,
    faults: &mut Vec<Fault<'a>>,
) -> Result<(), AllocError> {
    parser.next_with_faults(argument, faults)?;
    add_each(errors, faults.as_slice())?;
    faults.clear();
    Ok(())
}

/// Returns errors as one list.
fn into_list(errors: Errors) -> Result<Vec<ParseError>, AllocError> {
    let mut list = errors.front_errors;
    let mut back_errors = errors.back_errors;
    list.reverse();
    list.append(&mut back_errors);
    Ok(list)
}

/// Returns the errors of all calls of a parser up to the end of an input, in its order. The
/// arguments are those of [`Parser::new`]. The time grows with the input, whereas a parser moves
/// all errors that it has where one is put before them.
#[inline(never)]
pub fn errors_of(
    input: &str,
    style: Option<usize>,
    snippet: Option<String>,
    appended_newline: bool,
    mode: ParseMode,
) -> Result<Vec<ParseError>, AllocError> {
    if input.is_empty() {
        return Ok(Vec::new());
    }
    let mut parser = Parser::new(input, style, snippet, appended_newline, mode)?;
    let mut argument = Argument::default();
    let mut faults = Vec::new();
    let mut errors = Errors {
        front_errors: Vec::new(),
        back_errors: Vec::new(),
    };
    while !parser.is_at_end() {
        add_next(&mut errors, &mut parser, &mut argument, &mut faults)?;
    }
    into_list(errors)
}
