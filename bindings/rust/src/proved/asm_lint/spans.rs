//! The places of a call in its file.

// Extracted from crates/asm_lint/src/spans.rt by tools/extract: not to be edited.
// That source has the contracts, and is proved. That this text means the same is only tested.

use crate::proved::asm_lint::literals::offset_in;
use crate::proved::call_forms::is_in_path;
use crate::proved::format_calls::{token_at, Argument};
use crate::proved::rust_trees::Token;
use crate::proved::text_faults::Spot;
use crate::shim::prelude::*;
use core::ops::Range;

/// A call and its parts in the file.
#[derive(Clone, Copy)]
pub struct Site<'s, 'a> {
    /// The text of the file.
    pub text: &'a str,
    /// The tokens of the part of the file that has the call.
    pub tokens: &'s [Token<'a>],
    /// The literal of its format string.
    pub literal: Token<'a>,
    /// Its CRs that stand before LF, as `dropped_crs` returns them.
    pub crs: &'s [usize],
    /// The arguments after its format string.
    pub arguments: &'s [Argument],
    /// The index of the name of its macro.
    pub name: usize,
    /// The index of the delimiter that closes it.
    pub close: usize,
}

/// Returns the range between two byte offsets of a text. An offset within a character goes back to
/// its start, and the range is empty if its end comes before its start.
pub fn range_in(text: &str, from: usize, to: usize) -> Range<usize> {
    let start = text.boundary_at_most(from);
    let end = text.boundary_at_most(to);
    if start <= end {
        start..end
    } else {
        start..start
    }
}

/// Returns the bytes from one token to the one before another.
#[inline(never)]
pub fn tokens_range(tokens: &[Token<'_>], from: usize, to: usize) -> Range<usize> {
    let Some(first) = token_at(tokens, from) else {
        return 0..0;
    };
    match token_at(tokens, to.saturating_sub(1)) {
        Some(last) => first.start..last.start.saturating_add(last.text.len()),
        None => first.start..first.start,
    }
}

/// Returns the offset of the word that ends at an offset of a text, or that offset if none does.
fn word_start(bytes: &[u8], end: usize) -> usize {
    let mut start = end;
    while start > 0 && is_in_path(bytes[start - 1]) {
        start -= 1;
    }
    start
}

/// Returns the offset of the path whose last word starts at an offset of a text, where no white
/// space stands in it.
#[inline(never)]
fn path_start(text: &str, name: usize) -> usize {
    let bytes = text.as_bytes();
    let mut start = name.min(bytes.len());
    while start > 1 && bytes[start - 1] == b':' && bytes[start - 2] == b':' {
        start = word_start(bytes, start - 2);
    }
    start
}

/// Returns the bytes of a call, from the path of its macro to the delimiter that closes it.
pub fn call_range(text: &str, tokens: &[Token<'_>], name: usize, close: usize) -> Range<usize> {
    let range = tokens_range(tokens, name, close.saturating_add(1));
    path_start(text, range.start)..range.end
}

/// Returns the bytes of an argument, or none if there is no such argument.
fn argument_range(site: Site<'_, '_>, index: usize) -> Range<usize> {
    match site.arguments.get(index) {
        Some(argument) => tokens_range(site.tokens, argument.start, argument.end),
        None => 0..0,
    }
}

/// Returns the bytes of the first token of an argument, which is its name if it has one.
#[inline(never)]
fn name_range(site: Site<'_, '_>, index: usize) -> Range<usize> {
    match site.arguments.get(index) {
        Some(argument) => tokens_range(
            site.tokens,
            argument.start,
            argument.start.saturating_add(1),
        ),
        None => 0..0,
    }
}

/// Returns the bytes of the value of an argument: without a name and its `=`.
#[inline(never)]
fn value_range(site: Site<'_, '_>, index: usize) -> Range<usize> {
    match site.arguments.get(index) {
        Some(argument) => {
            let start = if argument.is_named {
                argument.start.saturating_add(2)
            } else {
                argument.start
            };
            tokens_range(site.tokens, start, argument.end)
        }
        None => 0..0,
    }
}

/// Returns the bytes of the value of an argument, and those after it up to the value of the next
/// one, if there is one.
#[inline(never)]
fn range_up_to_next(site: Site<'_, '_>, index: usize) -> Range<usize> {
    let value = value_range(site, index);
    let next = index.saturating_add(1);
    if next < site.arguments.len() {
        value.start..value_range(site, next).start
    } else {
        value
    }
}

/// Returns the empty range after a range.
#[inline]
fn end_of(range: Range<usize>) -> Range<usize> {
    range.end..range.end
}

/// Returns the bytes of the literal.
#[inline]
fn whole_literal(literal: Token<'_>) -> Range<usize> {
    literal.start..literal.start.saturating_add(literal.text.len())
}

/// Returns the empty range before the closing quote of the literal.
#[inline(never)]
fn literal_end(literal: Token<'_>) -> Range<usize> {
    let quote = match literal.text.rfind('"') {
        Some(quote) => quote,
        None => literal.text.len(),
    };
    let end = literal.start.saturating_add(quote);
    end..end
}

/// Returns the bytes of a range of the literal, whose offsets are those of the literal with lines
/// that end with LF.
#[inline(never)]
fn literal_range(site: Site<'_, '_>, from: usize, to: usize) -> Range<usize> {
    let literal = site.literal;
    let start = offset_in(site.crs, from);
    let end = offset_in(site.crs, to);
    literal.start.saturating_add(start)..literal.start.saturating_add(end)
}

/// Returns the bytes of the file that a place of a call is.
#[inline(never)]
pub fn spot_range(site: Site<'_, '_>, spot: Spot) -> Range<usize> {
    let literal = site.literal;
    let range = match spot {
        Spot::Argument(index) => argument_range(site, index),
        Spot::Name(index) => name_range(site, index),
        Spot::Value(index) => value_range(site, index),
        Spot::ValueUpToNext(index) => range_up_to_next(site, index),
        Spot::ValueEnd(index) => end_of(value_range(site, index)),
        Spot::Literal => whole_literal(literal),
        Spot::LiteralEnd => literal_end(literal),
        Spot::AfterLiteral => end_of(whole_literal(literal)),
        Spot::Call => call_range(site.text, site.tokens, site.name, site.close),
        Spot::Bytes { start, end } => literal_range(site, start, end),
    };
    range_in(site.text, range.start, range.end)
}
