//! The ends of characters and lifetimes, and the kinds of comments.

// Extracted from crates/rust_tokens/src/literals.rt by tools/extract: not to be edited.
// That source has the contracts, and is proved. That this text means the same is only tested.

use crate::proved::rust_tokens::kinds::Kind;
use crate::proved::rust_tokens::texts::{
    after_run, begins, is_char_content, is_id_start, split_first, strip, Class,
};

/// Returns the kind of a line comment, by the text after its `//`.
#[inline]
pub fn line_kind(text: &str) -> Kind {
    let Some((c, rest)) = split_first(text) else {
        return Kind::LineComment;
    };
    if c == '!' {
        Kind::InnerLineDoc
    } else if c == '/' && !begins(rest, Class::Slash) {
        Kind::OuterLineDoc
    } else {
        Kind::LineComment
    }
}

/// Returns the kind of a block comment, by the text after its `/*`.
#[inline]
pub fn block_kind(text: &str) -> Kind {
    let Some((c, rest)) = split_first(text) else {
        return Kind::BlockComment;
    };
    if c == '!' {
        Kind::InnerBlockDoc
    } else if c == '*' && !begins(rest, Class::StarOrSlash) {
        Kind::OuterBlockDoc
    } else {
        Kind::BlockComment
    }
}

/// Returns the rest after an escape and an apostrophe, from after the backslash on, or `None`.
#[inline]
fn after_escape(text: &str) -> Option<&str> {
    let Some((_, rest)) = split_first(text) else {
        return None;
    };
    strip(after_run(rest, Class::Escape), '\'')
}

/// Returns the rest after a character literal, from after its first apostrophe on, or `None` if
/// there is none.
#[inline]
pub fn after_char(text: &str) -> Option<&str> {
    let Some((c, rest)) = split_first(text) else {
        return None;
    };
    if c == '\\' {
        return after_escape(rest);
    }
    if is_char_content(c) {
        return strip(rest, '\'');
    }
    None
}

/// Returns the text, or `None` if it begins with an apostrophe.
#[inline]
fn unless_apostrophe(text: &str) -> Option<&str> {
    if begins(text, Class::Apostrophe) {
        None
    } else {
        Some(text)
    }
}

/// Returns the rest after a word that no apostrophe follows, or `None`.
#[inline]
pub fn after_name(text: &str) -> Option<&str> {
    let Some((c, rest)) = split_first(text) else {
        return None;
    };
    if is_id_start(c) {
        return unless_apostrophe(after_run(rest, Class::Continue));
    }
    None
}

/// Returns the rest after `r#` and a word that no apostrophe follows, or `None`.
#[inline]
pub fn after_raw_name(text: &str) -> Option<&str> {
    let Some((c, rest)) = split_first(text) else {
        return None;
    };
    let Some((d, more)) = split_first(rest) else {
        return None;
    };
    if c == 'r' && d == '#' {
        return after_name(more);
    }
    None
}
