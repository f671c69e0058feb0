//! Tokens that begin with letters and are no plain word: literals with a prefix, and raw
//! identifiers.

// Extracted from crates/rust_tokens/src/openings.rt by tools/extract: not to be edited.
// That source has the contracts, and is proved. That this text means the same is only tested.

use crate::proved::rust_tokens::kinds::Kind;
use crate::proved::rust_tokens::texts::{
    after_run, count_hashes, is_id_start, split_first, strip, Class,
};

/// The opening of a token.
#[derive(Clone, Copy)]
pub enum Opening {
    /// The letters of a string literal of this kind, and its quote.
    Quote(Kind),
    /// The letters of a raw string literal of this kind, this many hashes, and its quote.
    Raw(Kind, usize),
    /// `b'`.
    ByteQuote,
    /// `r#` of a raw identifier, and its first character.
    RawWord,
}

/// Returns the opening of a raw string of this kind, and the rest after its quote, or `None` if the
/// text does not begin with hashes and a quote.
#[inline]
fn raw_opening(kind: Kind, text: &str) -> Option<(Opening, &str)> {
    match strip(after_run(text, Class::Hash), '"') {
        Some(rest) => Some((Opening::Raw(kind, count_hashes(text)), rest)),
        None => None,
    }
}

/// Returns the rest after a hash and the first character of a word, or `None` if the text does not
/// begin with these.
#[inline]
fn word_opening(text: &str) -> Option<(Opening, &str)> {
    let Some((c, rest)) = split_first(text) else {
        return None;
    };
    let Some((d, more)) = split_first(rest) else {
        return None;
    };
    if c == '#' && is_id_start(d) {
        Some((Opening::RawWord, more))
    } else {
        None
    }
}

/// Returns the opening after a `b`, and the rest after it, or `None` if there is none.
#[inline]
fn byte_opening(text: &str) -> Option<(Opening, &str)> {
    let Some((c, rest)) = split_first(text) else {
        return None;
    };
    match c {
        '"' => Some((Opening::Quote(Kind::ByteStr), rest)),
        '\'' => Some((Opening::ByteQuote, rest)),
        'r' => raw_opening(Kind::RawByteStr, rest),
        _ => None,
    }
}

/// Returns the opening after a `c`, and the rest after it, or `None` if there is none.
#[inline]
fn c_opening(text: &str) -> Option<(Opening, &str)> {
    let Some((c, rest)) = split_first(text) else {
        return None;
    };
    match c {
        '"' => Some((Opening::Quote(Kind::CStr), rest)),
        'r' => raw_opening(Kind::RawCStr, rest),
        _ => None,
    }
}

/// Returns the opening of a token, and the rest after it, or `None` if the text begins with none.
#[inline]
pub fn first_opening(text: &str) -> Option<(Opening, &str)> {
    let Some((c, rest)) = split_first(text) else {
        return None;
    };
    match c {
        '"' => Some((Opening::Quote(Kind::Str), rest)),
        'b' => byte_opening(rest),
        'c' => c_opening(rest),
        'r' => match raw_opening(Kind::RawStr, rest) {
            Some(opening) => Some(opening),
            None => word_opening(rest),
        },
        _ => None,
    }
}
