//! The faults that a round does not mend, looked for in the report after it.

// Extracted from crates/file_fixes/src/fault_search.rt by tools/extract: not to be edited.
// That source has the contracts, and is proved. That this text means the same is only tested.

use crate::proved::file_fixes::round_edits::end_after;
use crate::proved::source_report::{are_after, edits_of, Finding};
use crate::shim::alloc::AllocError;

/// Returns whether two faults have the same id and title.
#[inline]
fn is_alike(old: &Finding, new: &Finding) -> bool {
    old.id == new.id && old.title == new.title
}

/// Returns the index after that of the first fault, from the index `from` on, with the id and title
/// of this one, or `None` if there is none.
#[inline(never)]
fn index_after(finding: &Finding, faults: &[Finding], from: usize) -> Option<usize> {
    let mut index = from;
    while let Some(fault) = faults.get(index) {
        index += 1;
        if is_alike(finding, fault) {
            return Some(index);
        }
    }
    None
}

/// Returns where the last edit of a fault ends, or `None` if the fault is not mended. The last edit
/// before these ends at `at`.
#[inline(never)]
fn mended_end(at: usize, finding: &Finding) -> Result<Option<usize>, AllocError> {
    let edits = edits_of(finding)?;
    if edits.is_empty() || !are_after(at, edits.as_slice()) {
        return Ok(None);
    }
    Ok(Some(end_after(at, edits.as_slice())))
}

/// Returns whether the faults that a round does not mend are among the faults after it, in their
/// order.
#[inline(never)]
pub(crate) fn keeps_unmended(old: &[Finding], new: &[Finding]) -> Result<bool, AllocError> {
    let mut at = 0;
    let mut index = 0;
    for finding in old {
        if let Some(end) = mended_end(at, finding)? {
            at = end;
            continue;
        }
        let Some(next) = index_after(finding, new, index) else {
            return Ok(false);
        };
        index = next;
    }
    Ok(true)
}
