//! The arguments of a call.

// Extracted from crates/format_calls/src/split.rt by tools/extract: not to be edited.
// That source has the contracts, and is proved. That this text means the same is only tested.

use crate::proved::format_calls::marks::{is_mark, is_word, token_at};
use crate::proved::format_calls::modes::{is_followed, mode_after, Mode};
use crate::proved::rust_trees::{Source, Token};
use crate::shim::alloc::AllocError;
use crate::shim::prelude::*;

/// An argument of a call.
#[derive(Clone, Copy)]
pub struct Argument {
    /// The index of the token where it starts.
    pub start: usize,
    /// The index of the token after it: a comma or the closing delimiter.
    pub end: usize,
    /// Whether it has a name: a word and `=` stand before its value.
    pub is_named: bool,
}

/// Returns whether a comma at this token ends an argument.
fn is_end(tokens: &[Token<'_>], index: usize, mode: Mode) -> bool {
    !matches!(mode, Mode::Angles(_) | Mode::Parameters) && is_mark(tokens, index, b',')
}

/// Returns whether an argument that starts at this token has a name.
pub fn is_named(tokens: &[Token<'_>], index: usize) -> bool {
    match token_at(tokens, index) {
        Some(token) => {
            is_word(&token)
                && is_mark(tokens, index + 1, b'=')
                && !is_followed(tokens, index + 1, b'=')
                && !is_followed(tokens, index + 1, b'>')
        }
        None => false,
    }
}

/// Returns the token that closes the pair that a token opens, or `None` if it opens none.
pub fn closing_token(source: &Source<'_>, index: usize) -> Option<usize> {
    match source.partner(index) {
        Some(partner) if partner > index => Some(partner),
        _ => None,
    }
}

/// Returns the token after the tree at a token between two delimiters that are a pair.
pub fn after_tree(source: &Source<'_>, index: usize) -> usize {
    match closing_token(source, index) {
        Some(close) => close + 1,
        None => index + 1,
    }
}

/// Returns the end of the argument that starts at a token between delimiters, of which `to` closes
/// the pair.
fn argument_end(source: &Source<'_>, opening: usize, from: usize, to: usize) -> usize {
    let tokens = source.tokens();
    let mut mode = Mode::Start(false);
    let mut end = from;
    while end < to && !is_end(tokens, end, mode) {
        mode = mode_after(tokens, end, mode);
        end = after_tree(source, end);
    }
    end
}

/// Returns the arguments between two delimiters that are a pair.
fn arguments_between(
    source: &Source<'_>,
    opening: usize,
    close: usize,
) -> Result<Vec<Argument>, AllocError> {
    let tokens = source.tokens();
    let mut arguments = Vec::new();
    let mut start = opening + 1;
    while start < close {
        let end = argument_end(source, opening, start, close);
        let is_named = is_named(tokens, start);
        arguments.push(Argument {
            start,
            end,
            is_named,
        });
        if end == close {
            return Ok(arguments);
        }
        start = end + 1;
    }
    Ok(arguments)
}

/// Returns the arguments of the call that ends with this closing delimiter, or `None` if the token
/// closes no pair.
pub fn arguments(source: &Source<'_>, close: usize) -> Result<Option<Vec<Argument>>, AllocError> {
    match source.partner(close) {
        Some(opening) => {
            if opening < close {
                let arguments = arguments_between(source, opening, close)?;
                Ok(Some(arguments))
            } else {
                Ok(None)
            }
        }
        None => Ok(None),
    }
}
