//! Fronts of texts that read as the same tokens before each word.

// Extracted from crates/rust_tokens/src/fronts.rt by tools/extract: not to be edited.
// That source has the contracts, and is proved. That this text means the same is only tested.

use crate::proved::rust_tokens::texts::{is_id_start, split_first, Class};

/// Returns whether the character stands in no word and no number, and opens no literal.
#[inline]
fn is_barrier(c: char) -> bool {
    !(c == '#'
        || c == '"'
        || c == '\''
        || c == '.'
        || c == '+'
        || c == '-'
        || Class::Continue.passes(c))
}

/// Returns whether the text ends with a barrier: a character that stands in no word and no number,
/// and opens no literal.
#[inline]
pub fn ends_with_barrier(text: &str) -> bool {
    match text.chars().next_back() {
        Some(c) => is_barrier(c),
        None => false,
    }
}

/// Returns whether the text begins with a word.
#[inline]
pub fn begins_with_word(text: &str) -> bool {
    match split_first(text) {
        Some((c, _)) => is_id_start(c),
        None => false,
    }
}
