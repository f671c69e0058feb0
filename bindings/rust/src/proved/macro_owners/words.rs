//! Tokens that may be missing, as words and marks.

// Extracted from crates/macro_owners/src/words.rt by tools/extract: not to be edited.
// That source has the contracts, and is proved. That this text means the same is only tested.

use crate::proved::format_calls::{is_mark_of, is_word, word};
use crate::proved::macro_owners::names::is_notable_word;
use crate::proved::rust_trees::Token;

/// Returns the bytes of a word, without `r#`, or nothing if the token is none.
pub fn word_of<'a>(token: Option<Token<'a>>) -> &'a [u8] {
    match token {
        Some(token) if is_word(&token) => word(&token),
        _ => b"",
    }
}

/// Returns whether the token is this word.
#[inline]
pub fn is_named(token: Option<Token<'_>>, name: &str) -> bool {
    word_of(token) == name.as_bytes()
}

/// Returns whether the token is this character of punctuation.
pub fn is_mark(token: Option<Token<'_>>, mark: u8) -> bool {
    match token {
        Some(token) => is_mark_of(&token, mark),
        None => false,
    }
}

/// Returns whether facts may come from a token or from those after it.
#[inline(always)]
pub fn is_notable(token: Option<Token<'_>>) -> bool {
    match token {
        Some(token) if is_word(&token) => is_notable_word(word(&token)),
        _ => is_mark(token, b'!'),
    }
}
