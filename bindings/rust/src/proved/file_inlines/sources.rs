//! The arguments of a call in a file, each with the source that goes with it.

// Extracted from crates/file_inlines/src/sources.rt by tools/extract: not to be edited.
// That source has the contracts, and is proved. That this text means the same is only tested.

use crate::proved::asm_lint::name_of;
use crate::proved::format_calls::{is_word, token_at, Argument};
use crate::proved::inlined_arguments::Argument as FormatArgument;
use crate::proved::rust_trees::Token;
use crate::shim::alloc::AllocError;
use crate::shim::prelude::*;
use core::ops::Range;

/// Returns the offset at which the token of an index ends in its file, or 0 if there is none.
#[inline(never)]
fn end_at(text: &str, tokens: &[Token<'_>], index: usize) -> usize {
    match token_at(tokens, index) {
        Some(token) => text.len().min(token.start.saturating_add(token.text.len())),
        None => 0,
    }
}

/// Returns the bytes of a file that go with an argument: from the end of the token before its comma
/// to its own end.
#[inline(never)]
pub(crate) fn removal_range(text: &str, tokens: &[Token<'_>], argument: &Argument) -> Range<usize> {
    let start = end_at(text, tokens, argument.start.saturating_sub(2));
    let end = end_at(text, tokens, argument.end.saturating_sub(1));
    start..end
}

/// Returns the bytes of a text in a range, or those of it that there are.
#[inline(never)]
fn bytes_in<'a>(text: &'a str, range: &Range<usize>) -> &'a [u8] {
    let rest = text.as_bytes().get(range.start..).unwrap_or(&[]);
    rest.get(..range.end.saturating_sub(range.start))
        .unwrap_or(rest)
}

/// Returns the value of an argument if that is one word.
#[inline(never)]
fn word_of<'a>(tokens: &[Token<'a>], argument: &Argument) -> Option<&'a str> {
    let count = if argument.is_named { 3 } else { 1 };
    if argument.end.saturating_sub(argument.start) != count {
        return None;
    }
    match token_at(tokens, argument.end.saturating_sub(1)) {
        Some(token) => {
            if is_word(&token) {
                Some(token.text)
            } else {
                None
            }
        }
        None => None,
    }
}

/// Returns an argument of a call with its source.
#[inline(never)]
fn with_source<'a>(text: &'a str, tokens: &[Token<'a>], argument: &Argument) -> FormatArgument<'a> {
    let range = removal_range(text, tokens, argument);
    FormatArgument {
        name: name_of(tokens, argument),
        word: word_of(tokens, argument),
        source: bytes_in(text, &range),
    }
}

/// Returns arguments of a call with their source.
pub(crate) fn with_sources<'a>(
    text: &'a str,
    tokens: &[Token<'a>],
    arguments: &[Argument],
) -> Result<Vec<FormatArgument<'a>>, AllocError> {
    let mut list = Vec::new();
    for argument in arguments {
        list.push(with_source(text, tokens, argument));
    }
    Ok(list)
}
