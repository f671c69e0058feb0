//! The literal that the suggestions of its faults make of it, round by round.

// Extracted from crates/fault_fixes/src/rounds.rt by tools/extract: not to be edited.
// That source has the contracts, and is proved. That this text means the same is only tested.

use crate::proved::fault_fixes::fixes::{round, FixedLiteral};
use crate::proved::rustc_parse_format::{Argument, Fault, ParseMode};
use crate::shim::alloc::AllocError;
use crate::shim::parser::Parser;
use crate::shim::prelude::*;

/// The most rounds of edits: those of a round may make others possible.
const MOST_ROUNDS: usize = 8;

/// The faults of a text.
struct Faults<'a> {
    /// All of them, in the order in which they are found.
    list: Vec<Fault<'a>>,
    /// How many calls of a parser find any.
    calls: usize,
}

/// Returns the faults of a text. Returns `Err` if an allocation fails, or if the text has 2^59
/// bytes or more.
#[inline(never)]
fn faults_of(text: &str, mode: ParseMode) -> Result<Faults<'_>, AllocError> {
    if text.len() >= 1 << (usize::BITS - 5) {
        return crate::shim::alloc::refuse();
    }
    let mut parser = Parser::new(text, None, None, false, mode)?;
    let mut argument = Argument::default();
    let mut list = Vec::new();
    let mut calls = 0;
    while !parser.is_at_end() {
        let count = list.len();
        parser.next_with_faults(&mut argument, &mut list)?;
        if count < list.len() {
            calls += 1;
        }
    }
    Ok(Faults { list, calls })
}

/// Returns whether faults are some of others, in their order, by their kinds alone.
#[inline(never)]
fn is_part(part: &[Fault<'_>], all_faults: &[Fault<'_>]) -> bool {
    let mut count = 0;
    for fault in all_faults {
        if count == part.len() {
            return true;
        }
        if part[count].id() == fault.id() {
            count += 1;
        }
    }
    count == part.len()
}

/// Returns how many calls over a text find a fault, or `None` if not all of these faults are old
/// ones, in their order. Returns `Err` as `faults_of` does.
#[inline(never)]
fn count_left(old: &[Fault<'_>], text: &str, mode: ParseMode) -> Result<Option<usize>, AllocError> {
    let faults = faults_of(text, mode)?;
    if is_part(faults.list.as_slice(), old) {
        Ok(Some(faults.calls))
    } else {
        Ok(None)
    }
}

/// The best literal so far.
struct Best {
    /// The literal, or `None` if none is better than that of the start.
    literal: Option<FixedLiteral>,
    /// How many of its calls find a fault, or of those at the start.
    calls: usize,
}

/// Keeps a literal if it is better. `calls` is how many of its calls find a fault, or `None` if
/// there is a new one.
fn offer(best: &mut Best, literal: FixedLiteral, calls: Option<usize>) {
    if let Some(calls) = calls {
        if calls < best.calls {
            best.literal = Some(literal);
            best.calls = calls;
        }
    }
}

/// Returns what one more round of edits makes of a literal, or `None` if there is no edit. Returns
/// `Err` if an allocation fails, or if the literal or its text has 2^59 bytes or more.
#[inline(never)]
fn next_round(
    literal: &FixedLiteral,
    style: Option<usize>,
    appended_newline: bool,
    mode: ParseMode,
) -> Result<Option<FixedLiteral>, AllocError> {
    let text = literal.text.as_str();
    let snippet = literal.snippet.as_str();
    if text.len() >= 1 << (usize::BITS - 5) {
        return crate::shim::alloc::refuse();
    }
    if snippet.len() >= 1 << (usize::BITS - 5) {
        return crate::shim::alloc::refuse();
    }
    Ok(round(text, style, snippet, appended_newline, mode)?)
}

/// Returns the source literal of an input with the edits that its faults suggest, and the text with
/// the same edits, which the literal then stands for. Fewer calls of a parser over it find a fault,
/// and each of these faults the input has too.
///
/// The edits of all faults are made in a round, and then those that the result suggests, in at most
/// eight rounds. Of all that the literal becomes without a new fault, the result is what has the
/// fewest calls that find one, and of two with as few the earlier one. Faults are compared by their
/// kinds, as [`Fault::id`] names them.
///
/// Returns `None` if there is no such literal: if there is no edit, if all lead to new faults, or
/// if the snippet is not the source literal of the input, so that no edit is made in a foreign
/// literal. The arguments are those of [`Parser::new`]: the number of hashes, the byte length of
/// the input and 2 must add up to less than 2^64. Returns `Err` if an allocation fails, or if there
/// is an edit and a literal or its text has 2^59 bytes or more.
#[inline(never)]
pub fn fix(
    input: &str,
    style: Option<usize>,
    snippet: &str,
    appended_newline: bool,
    mode: ParseMode,
) -> Result<Option<FixedLiteral>, AllocError> {
    let Some(first_literal) = round(input, style, snippet, appended_newline, mode)? else {
        return Ok(None);
    };
    let old = faults_of(input, mode)?;
    let mut best = Best {
        literal: None,
        calls: old.calls,
    };
    let mut next_literal = Some(first_literal);
    let mut rounds = 0;
    while rounds < MOST_ROUNDS {
        let Some(literal) = next_literal else {
            return Ok(best.literal);
        };
        let calls = count_left(old.list.as_slice(), literal.text.as_str(), mode)?;
        if let Some(0) = calls {
            offer(&mut best, literal, calls);
            return Ok(best.literal);
        }
        next_literal = next_round(&literal, style, appended_newline, mode)?;
        offer(&mut best, literal, calls);
        rounds += 1;
    }
    Ok(best.literal)
}
