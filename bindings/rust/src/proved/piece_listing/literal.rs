//! An input that is a string literal, and the text that it stands for.

// Extracted from crates/piece_listing/src/literal.rt by tools/extract: not to be edited.
// That source has the contracts, and is proved. That this text means the same is only tested.

use crate::proved::rustc_parse_format::literal::{content_text, quoted_content};
use crate::shim::alloc::AllocError;
use crate::shim::prelude::*;

/// Returns a text without the character `c` at its end, or `None` if it does not end in `c`.
#[inline]
fn without_last(text: &str, c: char) -> Option<&str> {
    text.strip_suffix(c)
}

/// Returns a text without the newline at its end, if it ends in one.
pub fn strip_newline(text: &str) -> &str {
    match without_last(text, '\n') {
        Some(line) => line,
        None => text,
    }
}

/// Returns a text without the character `c` at its start, or `None` if it does not begin with `c`.
#[inline]
fn without_first(text: &str, c: char) -> Option<&str> {
    text.strip_prefix(c)
}

/// Returns the number of hashes at the start of a text, and the text after them.
#[inline(never)]
fn leading_hashes(text: &str) -> (usize, &str) {
    let mut count = 0;
    let mut rest = text;
    while let Some(rest_after) = without_first(rest, '#') {
        rest = rest_after;
        count += 1;
    }
    (count, rest)
}

/// Returns a text without `count` hashes at its end, or `None` if it does not end in as many.
#[inline(never)]
fn without_last_hashes(text: &str, count: usize) -> Option<&str> {
    let mut rest = text;
    for _ in 0..count {
        match without_last(rest, '#') {
            Some(front) => rest = front,
            None => return None,
        }
    }
    Some(rest)
}

/// The parts of a raw string literal.
#[derive(Clone, Copy)]
pub struct RawText<'a> {
    /// The number of hashes on each side of the quotes.
    pub hashes: usize,
    /// The text between the quotes.
    pub text: &'a str,
}

/// Returns the parts of a raw string literal, or `None` if it is no raw string literal.
#[inline(never)]
pub fn raw_text(literal: &str) -> Option<RawText<'_>> {
    let (hashes, rest) = leading_hashes(without_first(literal, 'r')?);
    let rest = without_first(rest, '"')?;
    let text = without_last(without_last_hashes(rest, hashes)?, '"')?;
    Some(RawText { hashes, text })
}

/// Returns the text that an ordinary string literal stands for, or `None` if it is no ordinary
/// string literal.
fn ordinary_text(literal: &str) -> Result<Option<String>, AllocError> {
    let Some(content) = quoted_content(literal) else {
        return Ok(None);
    };
    content_text(content)
}

/// The text that a string literal stands for.
pub struct LiteralText {
    /// The text, without quotes and with its escapes decoded.
    pub text: String,
    /// The number of hashes of a raw literal, or `None` for an ordinary one.
    pub style: Option<usize>,
}

/// Returns the text that a string literal stands for, or `None` if it is no string literal. Returns
/// `Err` if an allocation fails. The rules are those of the Rust Reference.
#[inline(never)]
pub fn literal_text(literal: &str) -> Result<Option<LiteralText>, AllocError> {
    if let Some(RawText { hashes, text }) = raw_text(literal) {
        return Ok(Some(LiteralText {
            text: String::from(text),
            style: Some(hashes),
        }));
    }
    match ordinary_text(literal)? {
        Some(text) => Ok(Some(LiteralText { text, style: None })),
        None => Ok(None),
    }
}
