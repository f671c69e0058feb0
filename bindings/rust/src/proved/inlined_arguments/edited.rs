//! A literal with edits.

// Extracted from crates/inlined_arguments/src/edited.rt by tools/extract: not to be edited.
// That source has the contracts, and is proved. That this text means the same is only tested.

use crate::proved::inlined_arguments::call::Edit;
use crate::shim::alloc::AllocError;
use crate::shim::prelude::*;

/// Returns bytes with edits, or `None` if these are not one after the other in the bytes, or
/// overlap.
#[inline(never)]
fn edited_bytes(bytes: &[u8], edits: &[Edit]) -> Result<Option<Vec<u8>>, AllocError> {
    let mut out = Vec::with_capacity(bytes.len());
    let mut at = 0;
    for edit in edits {
        if edit.span.start < at || edit.span.end < edit.span.start {
            return Ok(None);
        }
        if bytes.len() < edit.span.end {
            return Ok(None);
        }
        out.extend_from_slice(&bytes[at..edit.span.start]);
        out.extend_from_slice(edit.text.as_bytes());
        at = edit.span.end;
    }
    out.extend_from_slice(&bytes[at..]);
    Ok(Some(out))
}

/// Returns a literal with edits, or `None` if these are not one after the other in it, overlap or
/// cut a character.
#[inline(never)]
pub fn apply_edits(literal: &str, edits: &[Edit]) -> Result<Option<String>, AllocError> {
    match edited_bytes(literal.as_bytes(), edits)? {
        Some(bytes) => Ok(String::from_utf8(bytes).ok()),
        None => Ok(None),
    }
}
