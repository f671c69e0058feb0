//! The names of arguments.

// Extracted from crates/asm_lint/src/names.rt by tools/extract: not to be edited.
// That source has the contracts, and is proved. That this text means the same is only tested.

use crate::proved::format_calls::{token_at, Argument};
use crate::proved::rust_tokens::split_first;
use crate::proved::rust_trees::Token;

/// Returns a text without `r#` at its start.
#[inline(never)]
pub fn without_raw(text: &str) -> &str {
    let Some(('r', rest)) = split_first(text) else {
        return text;
    };
    match split_first(rest) {
        Some(('#', name)) => name,
        _ => text,
    }
}

/// Returns the name of an argument, without `r#`, or `None` if it has none.
#[inline(never)]
pub fn name_of<'a>(tokens: &[Token<'a>], argument: &Argument) -> Option<&'a str> {
    if !argument.is_named {
        return None;
    }
    match token_at(tokens, argument.start) {
        Some(token) => Some(without_raw(token.text)),
        None => None,
    }
}
