//! A text with the edits of faults.

// Extracted from crates/source_report/src/edited.rt by tools/extract: not to be edited.
// That source has the contracts, and is proved. That this text means the same is only tested.

use crate::proved::fault_fixes::Edit;
use crate::proved::source_report::report::Finding;
use crate::proved::source_report::suggestions::{are_after, edits_of};
use crate::shim::alloc::AllocError;
use crate::shim::prelude::*;

/// A text in the middle of its edits.
pub struct EditedText<'t> {
    /// The part of the text with its edits that is written.
    pub bytes: Vec<u8>,
    /// The rest of the text.
    pub rest: &'t [u8],
    /// The byte offset at which the rest starts: where the last edit ends, or 0 if there is none.
    pub end: usize,
    /// The ids of the faults that are mended.
    pub ids: Vec<&'static str>,
}

/// Returns the first n bytes, or all if there are fewer.
#[inline]
fn front(bytes: &[u8], n: usize) -> &[u8] {
    bytes.get(..n).unwrap_or(bytes)
}

/// Returns the bytes after the first n, or none if there are no more.
#[inline]
fn rest_after(bytes: &[u8], n: usize) -> &[u8] {
    bytes.get(n..).unwrap_or(&[])
}

/// Makes an edit.
#[inline(never)]
fn apply_edit(edited_text: &mut EditedText<'_>, edit: &Edit<'_>) -> Result<(), AllocError> {
    let source = front(
        edited_text.rest,
        edit.span.start.saturating_sub(edited_text.end),
    );
    edited_text.bytes.extend_from_slice(source);
    edited_text.bytes.extend_from_slice(edit.text.as_bytes());
    edited_text.rest = rest_after(
        edited_text.rest,
        edit.span.end.saturating_sub(edited_text.end),
    );
    edited_text.end = edit.span.end;
    Ok(())
}

/// Makes edits, the first one first.
fn apply_edits(edited_text: &mut EditedText<'_>, edits: &[Edit<'_>]) -> Result<(), AllocError> {
    for edit in edits {
        apply_edit(edited_text, edit)?;
    }
    Ok(())
}

/// Mends a fault, if it has edits, and these follow the last one.
#[inline(never)]
fn mend(edited_text: &mut EditedText<'_>, finding: &Finding) -> Result<(), AllocError> {
    let edits = edits_of(finding)?;
    if !edits.is_empty() && are_after(edited_text.end, edits.as_slice()) {
        apply_edits(edited_text, edits.as_slice())?;
        edited_text.ids.push(finding.id);
    }
    Ok(())
}

/// Mends the faults of a text that can be mended in one round.
#[inline(never)]
pub fn mend_each<'t>(text: &'t str, findings: &[Finding]) -> Result<EditedText<'t>, AllocError> {
    let mut edited_text = EditedText {
        bytes: Vec::new(),
        rest: text.as_bytes(),
        end: 0,
        ids: Vec::new(),
    };
    for finding in findings {
        mend(&mut edited_text, finding)?;
    }
    let rest = edited_text.rest;
    edited_text.bytes.extend_from_slice(rest);
    Ok(edited_text)
}
