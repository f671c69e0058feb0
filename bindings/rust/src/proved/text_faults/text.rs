//! The format string, and the fault of it that rustc shows.

// Extracted from crates/text_faults/src/text.rt by tools/extract: not to be edited.
// That source has the contracts, and is proved. That this text means the same is only tested.

use crate::proved::rustc_parse_format::{Argument, Fault};
use crate::shim::alloc::AllocError;
use crate::shim::parser::Parser;
use crate::shim::prelude::*;

/// Returns the fault that is shown of those of a call up to `fault`, where `choice` is that of
/// those before it.
fn choose<'a>(choice: Option<Fault<'a>>, fault: Fault<'a>) -> Option<Fault<'a>> {
    if choice.is_some() && !fault.is_front() {
        choice
    } else {
        Some(fault)
    }
}

/// Returns of the faults of a call the one whose error comes first in the list of a parser, or
/// `None` if there is none.
fn shown_fault(faults: Vec<Fault<'_>>) -> Option<Fault<'_>> {
    let mut choice = None;
    for fault in faults {
        choice = choose(choice, fault);
    }
    choice
}

/// Returns the faults of the first call of a parser that finds any.
#[inline(never)]
fn first_faults<'a>(parser: &mut Parser<'a>) -> Result<Vec<Fault<'a>>, AllocError> {
    let mut argument = Argument::default();
    let mut faults = Vec::new();
    while faults.is_empty() && !parser.is_at_end() {
        parser.next_with_faults(&mut argument, &mut faults)?;
    }
    Ok(faults)
}

/// Returns the fault of a text that rustc shows: of the calls of a parser from where it is, up to
/// the first one that finds any. Returns `None` if they find none. The parser is then after these
/// calls.
#[inline]
pub fn text_fault<'a>(parser: &mut Parser<'a>) -> Result<Option<Fault<'a>>, AllocError> {
    let faults = first_faults(parser)?;
    Ok(shown_fault(faults))
}
