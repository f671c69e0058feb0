//! Whether the faults that a round mends are gone after it.

// Extracted from crates/file_fixes/src/mended.rt by tools/extract: not to be edited.
// That source has the contracts, and is proved. That this text means the same is only tested.

use crate::proved::fault_fixes::Edit;
use crate::proved::source_report::{are_after, edits_of, is_applicable, Finding};
use crate::shim::alloc::AllocError;
use alloc::collections::BTreeSet;

/// Where an edit ends.
#[derive(Clone, Copy)]
struct EditEnd {
    /// The byte offset in the text without the edits.
    old: usize,
    /// The byte offset in the text with them.
    new: usize,
}

/// Returns the sum of two numbers of bytes. Returns `Err` if no memory has so many.
pub(crate) fn sum(a: usize, b: usize) -> Result<usize, AllocError> {
    let Some(total) = a.checked_add(b) else {
        return crate::shim::alloc::refuse();
    };
    Ok(total)
}

/// Returns where an edit ends. The edit before it ends at `before`. Returns `Err` as [`sum`] does.
#[inline(never)]
fn end_of(before: EditEnd, edit: &Edit<'_>) -> Result<EditEnd, AllocError> {
    let start = sum(before.new, edit.span.start.saturating_sub(before.old))?;
    Ok(EditEnd {
        old: edit.span.end,
        new: sum(start, edit.text.len())?,
    })
}

/// Returns where an offset of a text is in the text with these edits. The edit before them ends at
/// `before`. Returns `Err` as [`sum`] does.
#[inline(never)]
fn moved_offset(before: EditEnd, edits: &[Edit<'_>], offset: usize) -> Result<usize, AllocError> {
    let mut end = before;
    for edit in edits {
        if edit.span.start >= offset {
            return sum(end.new, offset.saturating_sub(end.old));
        }
        end = end_of(end, edit)?;
    }
    sum(end.new, offset.saturating_sub(end.old))
}

/// Returns where the last of these edits ends, or `before` if there is none. Returns `Err` as
/// [`sum`] does.
fn last_end(before: EditEnd, edits: &[Edit<'_>]) -> Result<EditEnd, AllocError> {
    let mut end = before;
    for edit in edits {
        end = end_of(end, edit)?;
    }
    Ok(end)
}

/// Adds an end.
#[inline]
fn insert_end(ends: &mut BTreeSet<usize>, end: usize) -> Result<(), AllocError> {
    ends.insert(end);
    Ok(())
}

/// Adds to the ends of mended faults that of this one, if it is mended. The edit before its edits
/// ends at `before`. Returns where the last edit ends then.
#[inline(never)]
fn add_end(
    ends: &mut BTreeSet<usize>,
    before: EditEnd,
    finding: &Finding,
) -> Result<EditEnd, AllocError> {
    let edits = edits_of(finding)?;
    if edits.is_empty() || !are_after(before.old, edits.as_slice()) {
        return Ok(before);
    }
    let moved_end = moved_offset(before, edits.as_slice(), finding.span.end)?;
    insert_end(ends, moved_end)?;
    let end = last_end(before, edits.as_slice())?;
    Ok(end)
}

/// Returns where the faults that a round mends end in the text after it.
#[inline(never)]
fn mended_ends(findings: &[Finding]) -> Result<BTreeSet<usize>, AllocError> {
    let mut ends = BTreeSet::new();
    let mut end = EditEnd { old: 0, new: 0 };
    for finding in findings {
        end = add_end(&mut ends, end, finding)?;
    }
    Ok(ends)
}

/// Returns whether the faults that a round mends are gone: none of the faults after it could be
/// mended and ends where one of them ended.
#[inline(never)]
pub(crate) fn are_gone(old: &[Finding], new: &[Finding]) -> Result<bool, AllocError> {
    let ends = mended_ends(old)?;
    for fault in new {
        if is_applicable(fault.id) && ends.contains(&fault.span.end) {
            return Ok(false);
        }
    }
    Ok(true)
}
