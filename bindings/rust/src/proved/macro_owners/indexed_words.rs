//! Tokens by their index, as words.

// Extracted from crates/macro_owners/src/indexed_words.rt by tools/extract: not to be edited.
// That source has the contracts, and is proved. That this text means the same is only tested.

use crate::proved::format_calls::{is_mark, is_text, is_word, token_at, word};
use crate::proved::rust_trees::Token;

/// Returns whether the token of an index is this word, not a raw one.
pub fn is_written(tokens: &[Token<'_>], index: usize, name: &str) -> bool {
    match token_at(tokens, index) {
        Some(token) => is_text(&token, name),
        None => false,
    }
}

/// Returns whether the token of an index is a word.
pub fn is_name(tokens: &[Token<'_>], index: usize) -> bool {
    match token_at(tokens, index) {
        Some(token) => is_word(&token),
        None => false,
    }
}

/// Returns whether two tokens are the same word.
pub fn is_same_word(tokens: &[Token<'_>], index: usize, other: usize) -> bool {
    let Some(token) = token_at(tokens, index) else {
        return false;
    };
    let Some(other) = token_at(tokens, other) else {
        return false;
    };
    is_word(&token) && is_word(&other) && word(&token) == word(&other)
}

/// Returns whether a token begins a use of the variable of which another token is the name.
pub fn is_use(tokens: &[Token<'_>], variable: usize, index: usize) -> bool {
    is_mark(tokens, index, b'$') && is_same_word(tokens, index + 1, variable)
}

/// Returns whether a token says that what is before it is repeated.
#[inline]
pub fn is_star(tokens: &[Token<'_>], index: usize) -> bool {
    is_mark(tokens, index, b'*') || is_mark(tokens, index, b'+')
}

/// Returns whether a token begins `$($variable)*`, where another token is the name of the variable.
pub fn is_copy(tokens: &[Token<'_>], variable: usize, index: usize) -> bool {
    is_mark(tokens, index, b'$')
        && is_mark(tokens, index + 1, b'(')
        && is_use(tokens, variable, index + 2)
        && is_mark(tokens, index + 4, b')')
        && is_star(tokens, index + 5)
}
