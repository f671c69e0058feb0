//! The byte offsets where the characters of an input start in its source.

// Extracted from crates/format_tokens/src/places.rt by tools/extract: not to be edited.
// That source has the contracts, and is proved. That this text means the same is only tested.

use crate::proved::format_tokens::culprits::{fits, inside_after, marked_kind, role_of};
use crate::proved::format_tokens::kinds::{Label, Token};
use crate::proved::format_tokens::parts::length_of;
use crate::proved::rustc_parse_format::literal::{quoted_content, read_content};
use crate::shim::alloc::AllocError;
use crate::shim::prelude::*;

/// Returns the byte offsets where the characters of a text start, where it starts at `at` and each
/// character stands for itself, and then `end`.
#[inline(never)]
pub fn plain_starts(at: usize, text: &str, end: usize) -> Result<Vec<usize>, AllocError> {
    let mut starts = Vec::with_capacity(length_of(text).saturating_add(1));
    let mut next = at;
    let mut rest = text.chars();
    while let Some(c) = rest.next() {
        starts.push(next);
        next += c.len_utf8();
    }
    starts.push(end);
    Ok(starts)
}

/// Returns the byte offsets where the characters of an input start in its source literal, an
/// ordinary one, and then the end of the text.
#[inline(never)]
pub fn ordinary_starts(snippet: &str, appended_newline: bool) -> Result<Vec<usize>, AllocError> {
    let Some(content) = quoted_content(snippet) else {
        return Ok(Vec::new());
    };
    let Some(characters) = read_content(content)? else {
        return Ok(Vec::new());
    };
    let mut starts = Vec::with_capacity(characters.len().saturating_add(2));
    let mut end = 1;
    for character in &characters {
        starts.push(character.span.start + 1);
        end = character.span.end + 1;
    }
    if appended_newline {
        starts.push(end);
    }
    starts.push(end);
    Ok(starts)
}

/// Adds the tokens of the first `count` characters, with those marked that are out of place.
/// `needs_names` says whether only names are accepted, `starts` where the characters start.
#[inline(never)]
pub fn place(
    tokens: &mut Vec<Token>,
    needs_names: bool,
    labels: &[Label],
    starts: &[usize],
    count: usize,
) -> Result<(), AllocError> {
    let mut at = 0;
    let mut is_inside = false;
    let mut rest = labels;
    while let Some((label, others)) = rest.split_first() {
        let role = role_of(label.kind);
        let is_in_place = fits(needs_names, is_inside, role, others);
        let to = at + label.width.min(count - at);
        if at < to {
            tokens.push(Token {
                kind: marked_kind(label.kind, is_in_place),
                span: starts[at]..starts[to],
            });
        }
        at = to;
        is_inside = inside_after(is_inside, is_in_place, role);
        rest = others;
    }
    Ok(())
}
