//! A token without its suffix, and the rest after it.

// Extracted from crates/rust_tokens/src/bodies.rt by tools/extract: not to be edited.
// That source has the contracts, and is proved. That this text means the same is only tested.

use crate::proved::rust_tokens::kinds::Kind;

/// A token without its suffix.
#[derive(Clone, Copy)]
pub struct Body<'a> {
    /// The kind.
    pub kind: Kind,
    /// Whether it has its end.
    pub is_ended: bool,
    /// The rest after it: its suffix, and the text that follows.
    pub rest: &'a str,
}

/// Returns the token of this kind after which `rest` is left.
#[inline]
pub fn ended_token(kind: Kind, rest: &str) -> Body<'_> {
    Body {
        kind,
        is_ended: true,
        rest,
    }
}

/// Returns the token of this kind without its end after which `rest` is left.
#[inline]
pub fn unended_token(kind: Kind, rest: &str) -> Body<'_> {
    Body {
        kind,
        is_ended: false,
        rest,
    }
}
