//! The left sides of arms.

// Extracted from crates/macro_owners/src/lefts.rt by tools/extract: not to be edited.
// That source has the contracts, and is proved. That this text means the same is only tested.

use crate::proved::format_calls::is_mark;
use crate::proved::macro_owners::indexed_words::{is_name, is_star, is_written};
use crate::proved::rust_trees::Token;

/// Returns whether a token says that a variable is an argument.
fn is_kind(tokens: &[Token<'_>], index: usize) -> bool {
    is_written(tokens, index, "expr")
        || is_written(tokens, index, "ident")
        || is_written(tokens, index, "literal")
}

/// Returns whether a token begins a variable that is an argument, and the comma after it.
fn is_argument(tokens: &[Token<'_>], index: usize) -> bool {
    is_mark(tokens, index, b'$')
        && is_name(tokens, index + 1)
        && is_mark(tokens, index + 2, b':')
        && is_kind(tokens, index + 3)
        && is_mark(tokens, index + 4, b',')
}

/// Returns whether a token begins a variable that takes all further tokens.
fn is_rest(tokens: &[Token<'_>], index: usize) -> bool {
    is_mark(tokens, index, b'$')
        && is_mark(tokens, index + 1, b'(')
        && is_mark(tokens, index + 2, b'$')
        && is_name(tokens, index + 3)
        && is_mark(tokens, index + 4, b':')
        && is_written(tokens, index + 5, "tt")
        && is_mark(tokens, index + 6, b')')
        && is_star(tokens, index + 7)
}

/// Returns how many arguments a left side takes before all further tokens, or `None` if it is not
/// of this form. It starts at one token and ends before another.
pub fn argument_count(tokens: &[Token<'_>], from: usize, to: usize) -> Option<usize> {
    let mut count = 0;
    let mut index = from;
    while index < to && is_argument(tokens, index) {
        count += 1;
        index += 5;
    }
    if index < to && to - index == 8 && is_rest(tokens, index) {
        Some(count)
    } else {
        None
    }
}
