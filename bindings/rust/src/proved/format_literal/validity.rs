//! Whether a string literal can stand in a program.

// Extracted from crates/format_literal/src/validity.rt by tools/extract: not to be edited.
// That source has the contracts, and is proved. That this text means the same is only tested.

use crate::proved::rust_tokens::{first_token, split_first, Kind};

/// Returns whether a text is one token, a raw string literal without a suffix.
#[inline(never)]
fn is_raw_token(text: &str) -> bool {
    let Some(token) = first_token(text) else {
        return false;
    };
    match token.kind {
        Kind::RawStr => token.is_ended && token.suffix_start == text.len(),
        _ => false,
    }
}

/// Returns whether a text has no CR.
fn has_no_cr(text: &str) -> bool {
    let mut rest = text;
    while let Some((c, more)) = split_first(rest) {
        if c == '\r' {
            return false;
        }
        rest = more;
    }
    true
}

/// Returns whether a literal of this style, which stands for this text, can stand in a program.
pub(crate) fn is_written(literal: &str, style: Option<usize>, text: &str) -> bool {
    match style {
        None => true,
        Some(_) => is_raw_token(literal) && has_no_cr(text),
    }
}
