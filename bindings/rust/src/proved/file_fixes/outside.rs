//! The tokens of a file that no edit touches, and whether all are tokens of Rust.

// Extracted from crates/file_fixes/src/outside.rt by tools/extract: not to be edited.
// That source has the contracts, and is proved. That this text means the same is only tested.

use crate::proved::fault_fixes::Edit;
use crate::proved::rust_tokens::{tokens, Kind, Token};
use crate::shim::alloc::AllocError;
use crate::shim::prelude::*;

/// A part of a text that an edit removes from it, or has put into it.
#[derive(Clone, Copy)]
struct EditedPart {
    /// How many bytes stand between it and the part before it, or the start of the text.
    gap: usize,
    /// How many bytes it has.
    width: usize,
}

/// A place among the parts of a text.
#[derive(Clone, Copy)]
struct PartsAhead {
    /// Where the last part before it ends, or 0 if there is none.
    end: usize,
    /// How many bytes the parts before it have.
    width: usize,
    /// The index of the first part after it.
    index: usize,
}

/// Returns the parts of a text that edits remove from it.
#[inline(never)]
fn old_parts(edits: &[Edit<'_>]) -> Result<Vec<EditedPart>, AllocError> {
    let mut parts = Vec::new();
    let mut end = 0;
    for edit in edits {
        parts.push(EditedPart {
            gap: edit.span.start.saturating_sub(end),
            width: edit.span.end.saturating_sub(edit.span.start),
        });
        end = edit.span.end;
    }
    Ok(parts)
}

/// Returns the parts of the edited text that edits put into it.
#[inline(never)]
fn new_parts(edits: &[Edit<'_>]) -> Result<Vec<EditedPart>, AllocError> {
    let mut parts = Vec::new();
    let mut end = 0;
    for edit in edits {
        parts.push(EditedPart {
            gap: edit.span.start.saturating_sub(end),
            width: edit.text.len(),
        });
        end = edit.span.end;
    }
    Ok(parts)
}

/// Returns whether a part ends by the offset `at`. The part before it ends at `end`.
fn ends_by(at: usize, end: usize, part: EditedPart) -> bool {
    end <= at && part.gap <= at - end && part.width <= at - end - part.gap
}

/// Returns the place after the place `from` and after all parts that end by the offset `at`.
#[inline(never)]
fn place_after(at: usize, from: PartsAhead, parts: &[EditedPart]) -> PartsAhead {
    let mut place = from;
    while let Some(part) = parts.get(place.index) {
        if !ends_by(at, place.end, *part) {
            return place;
        }
        place.end += part.gap + part.width;
        place.width += part.width;
        place.index += 1;
    }
    place
}

/// Returns whether no part that is ahead starts before the offset `at`.
fn is_before(at: usize, place: PartsAhead, parts: &[EditedPart]) -> bool {
    match parts.get(place.index) {
        Some(part) => at.saturating_sub(place.end) <= part.gap,
        None => true,
    }
}

/// Returns a token, moved n bytes towards the start of the text.
#[inline(never)]
fn moved_token(n: usize, token: &Token) -> Token {
    Token {
        kind: token.kind,
        span: token.span.start.saturating_sub(n)..token.span.end.saturating_sub(n),
        suffix_start: token.suffix_start.saturating_sub(n),
        is_ended: token.is_ended,
    }
}

/// Returns those tokens of a text that no part touches, at the places that they have in the text
/// without the parts.
#[inline(never)]
fn untouched_tokens(parts: &[EditedPart], tokens: &[Token]) -> Result<Vec<Token>, AllocError> {
    let mut others = Vec::new();
    let mut place = PartsAhead {
        end: 0,
        width: 0,
        index: 0,
    };
    for token in tokens {
        place = place_after(token.span.start, place, parts);
        if is_before(token.span.end, place, parts) {
            others.push(moved_token(place.width, token));
        }
    }
    Ok(others)
}

/// Returns whether two lists have the same tokens.
#[inline]
fn are_same(old: &[Token], new: &[Token]) -> bool {
    old == new
}

/// Returns whether a token has its end, and is no character that begins no token.
#[inline]
fn is_known(token: &Token) -> bool {
    token.is_ended && !matches!(token.kind, Kind::Unknown)
}

/// Returns whether all tokens are known.
#[inline]
fn are_known(tokens: &[Token]) -> bool {
    for token in tokens {
        if !is_known(token) {
            return false;
        }
    }
    true
}

/// Returns whether the tokens that no edit touches are the same in a text with these tokens and in
/// the edited text, of which all tokens are known.
#[inline(never)]
pub(crate) fn keeps_tokens(
    old: &[Token],
    edits: &[Edit<'_>],
    new: &str,
) -> Result<bool, AllocError> {
    let new_tokens = tokens(new)?;
    if !are_known(new_tokens.as_slice()) {
        return Ok(false);
    }
    let old_others = untouched_tokens(old_parts(edits)?.as_slice(), old)?;
    let new_others = untouched_tokens(new_parts(edits)?.as_slice(), new_tokens.as_slice())?;
    Ok(are_same(old_others.as_slice(), new_others.as_slice()))
}
