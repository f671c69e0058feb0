//! The side of a token in a pair of delimiters.

// Extracted from crates/rust_trees/src/sides.rt by tools/extract: not to be edited.
// That source has the contracts, and is proved. That this text means the same is only tested.

use crate::proved::rust_tokens::Kind;

/// A kind of delimiters.
#[derive(Clone, Copy)]
pub enum Delimiter {
    /// `(` and `)`
    Parenthesis,
    /// `[` and `]`
    Bracket,
    /// `{` and `}`
    Brace,
}

/// The side of a token in a pair of delimiters.
#[derive(Clone, Copy)]
pub enum Side {
    /// It opens a pair.
    Opens(Delimiter),
    /// It closes a pair.
    Closes(Delimiter),
    /// It is no delimiter.
    Neither,
}

/// Returns the side of a token of this kind with this text.
#[inline]
pub fn side_of(kind: Kind, text: &str) -> Side {
    if !matches!(kind, Kind::Punct) {
        return Side::Neither;
    }
    match text.as_bytes().first() {
        Some(b'(') => Side::Opens(Delimiter::Parenthesis),
        Some(b')') => Side::Closes(Delimiter::Parenthesis),
        Some(b'[') => Side::Opens(Delimiter::Bracket),
        Some(b']') => Side::Closes(Delimiter::Bracket),
        Some(b'{') => Side::Opens(Delimiter::Brace),
        Some(b'}') => Side::Closes(Delimiter::Brace),
        _ => Side::Neither,
    }
}

/// Returns whether two delimiters are of one kind.
#[inline]
pub fn is_same(opening: Delimiter, closing: Delimiter) -> bool {
    matches!(
        (opening, closing),
        (Delimiter::Parenthesis, Delimiter::Parenthesis)
            | (Delimiter::Bracket, Delimiter::Bracket)
            | (Delimiter::Brace, Delimiter::Brace)
    )
}

/// Returns whether a token closes a pair.
#[inline]
pub fn is_closing(side: Side) -> bool {
    matches!(side, Side::Closes(_))
}

/// Returns whether a token opens a pair.
#[inline]
pub fn is_opening(side: Side) -> bool {
    matches!(side, Side::Opens(_))
}
