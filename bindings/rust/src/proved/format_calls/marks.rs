//! Tokens by their index.

// Extracted from crates/format_calls/src/marks.rt by tools/extract: not to be edited.
// That source has the contracts, and is proved. That this text means the same is only tested.

use crate::proved::rust_tokens::Kind;
use crate::proved::rust_trees::Token;

/// Returns the token of an index, or `None` if there is none.
pub fn token_at<'a>(tokens: &[Token<'a>], index: usize) -> Option<Token<'a>> {
    if index < tokens.len() {
        Some(tokens[index])
    } else {
        None
    }
}

/// Returns whether the token is this character of punctuation.
pub fn is_mark_of(token: &Token<'_>, mark: u8) -> bool {
    if !matches!(token.kind, Kind::Punct) {
        return false;
    }
    match token.text.as_bytes().first() {
        Some(first) => *first == mark,
        None => false,
    }
}

/// Returns whether the token of an index is this character of punctuation.
pub fn is_mark(tokens: &[Token<'_>], index: usize, mark: u8) -> bool {
    match token_at(tokens, index) {
        Some(token) => is_mark_of(&token, mark),
        None => false,
    }
}

/// Returns whether the token before the one of an index is this character of punctuation.
#[inline]
pub fn is_after(tokens: &[Token<'_>], index: usize, mark: u8) -> bool {
    index > 0 && is_mark(tokens, index - 1, mark)
}

/// Returns whether the token is a word or a raw word.
#[inline]
pub fn is_word(token: &Token<'_>) -> bool {
    matches!(token.kind, Kind::Ident | Kind::RawIdent)
}

/// Returns the bytes of a word, without the `r#` of a raw one.
pub fn word<'a>(token: &Token<'a>) -> &'a [u8] {
    let bytes = token.text.as_bytes();
    if matches!(token.kind, Kind::RawIdent) && bytes.len() > 2 {
        &bytes[2..]
    } else {
        bytes
    }
}
