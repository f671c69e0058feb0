//! The tokens of a text and of a file.

// Extracted from crates/rust_tokens/src/lexer.rt by tools/extract: not to be edited.
// That source has the contracts, and is proved. That this text means the same is only tested.

use crate::proved::rust_tokens::ends::after_line;
use crate::proved::rust_tokens::first::{after_suffix, first_body, plain_token};
use crate::proved::rust_tokens::kinds::{Kind, Token};
use crate::proved::rust_tokens::texts::strip;
use crate::shim::alloc::AllocError;
use crate::shim::prelude::*;

/// A token at the start of a text.
#[derive(Clone, Copy)]
struct Step<'a> {
    /// Its kind.
    kind: Kind,
    /// Whether it has its end.
    is_ended: bool,
    /// The text from its suffix on.
    suffix: &'a str,
    /// The text after it.
    rest: &'a str,
}

/// Returns the token at the start of a text, or `None` if the text is empty: the slow way, for
/// tokens that `plain_token` does not know.
#[inline(never)]
fn any_step(text: &str) -> Option<Step<'_>> {
    let Some(body) = first_body(text) else {
        return None;
    };
    let rest = after_suffix(body);
    Some(Step {
        kind: body.kind,
        is_ended: body.is_ended,
        suffix: body.rest,
        rest,
    })
}

/// Returns the token at the start of a text, or `None` if the text is empty.
#[inline(always)]
fn next_step(text: &str) -> Option<Step<'_>> {
    if let Some((kind, rest)) = plain_token(text) {
        return Some(Step {
            kind,
            is_ended: true,
            suffix: rest,
            rest,
        });
    }
    any_step(text)
}

/// Returns the first token of a text that is not the start of a file, and the rest after it, or
/// `None` if the text is empty.
#[inline]
pub fn split_first_token(text: &str) -> Option<(Token, &str)> {
    let Some(step) = next_step(text) else {
        return None;
    };
    let token = Token {
        kind: step.kind,
        span: 0..text.len() - step.rest.len(),
        suffix_start: text.len() - step.suffix.len(),
        is_ended: step.is_ended,
    };
    Some((token, step.rest))
}

/// Returns the first token of a text that is not the start of a file, or `None` if the text is
/// empty.
#[inline]
pub fn first_token(text: &str) -> Option<Token> {
    match split_first_token(text) {
        Some((token, _)) => Some(token),
        None => None,
    }
}

/// Returns whether a token is white space or a comment that documents nothing.
#[inline]
fn is_gap(kind: Kind) -> bool {
    matches!(
        kind,
        Kind::Whitespace | Kind::LineComment | Kind::BlockComment
    )
}

/// Returns whether the text goes on with `[` after white space and comments.
#[inline]
fn opens_attribute(text: &str) -> bool {
    let mut rest = text;
    while let Some(step) = next_step(rest) {
        if !is_gap(step.kind) {
            return strip(rest, '[').is_some();
        }
        rest = step.rest;
    }
    false
}

/// Returns the rest after a byte order mark, or the text if it begins with none.
#[inline]
fn after_mark(text: &str) -> &str {
    match strip(text, '\u{feff}') {
        Some(rest) => rest,
        None => text,
    }
}

/// Returns the rest after a shebang, or the text if it begins with none.
#[inline]
fn after_shebang(text: &str) -> &str {
    let Some(after_hash) = strip(text, '#') else {
        return text;
    };
    let Some(line) = strip(after_hash, '!') else {
        return text;
    };
    if opens_attribute(line) {
        text
    } else {
        after_line(line)
    }
}

/// Returns the rest of a file after its byte order mark and its shebang.
#[inline]
pub fn skip_head(text: &str) -> &str {
    after_shebang(after_mark(text))
}

/// Adds a token of this kind unless it is empty.
#[inline]
fn add_unless_empty(
    tokens: &mut Vec<Token>,
    kind: Kind,
    start: usize,
    end: usize,
) -> Result<(), AllocError> {
    if start < end {
        tokens.push(Token {
            kind,
            span: start..end,
            suffix_start: end,
            is_ended: true,
        });
    }
    Ok(())
}

/// Returns the tokens of a file.
#[inline]
pub fn tokens(text: &str) -> Result<Vec<Token>, AllocError> {
    let unmarked_text = after_mark(text);
    let mark_end = text.len() - unmarked_text.len();
    let mut rest = after_shebang(unmarked_text);
    let mut list = Vec::new();
    add_unless_empty(&mut list, Kind::ByteOrderMark, 0, mark_end)?;
    add_unless_empty(&mut list, Kind::Shebang, mark_end, text.len() - rest.len())?;
    while let Some(step) = next_step(rest) {
        let token = Token {
            kind: step.kind,
            span: text.len() - rest.len()..text.len() - step.rest.len(),
            suffix_start: text.len() - step.suffix.len(),
            is_ended: step.is_ended,
        };
        list.push(token);
        rest = step.rest;
    }
    Ok(list)
}
