//! The edits of a round.

// Extracted from crates/file_fixes/src/round_edits.rt by tools/extract: not to be edited.
// That source has the contracts, and is proved. That this text means the same is only tested.

use crate::proved::fault_fixes::Edit;
use crate::proved::source_report::{are_after, edits_of, Finding};
use crate::shim::alloc::AllocError;
use crate::shim::prelude::*;

/// Returns where the last edit ends, or `at` if there is none.
pub(crate) fn end_after(at: usize, edits: &[Edit<'_>]) -> usize {
    let mut end = at;
    for edit in edits {
        end = edit.span.end;
    }
    end
}

/// Adds the edits of a fault if it is mended. The last edit before them ends at `at`. Returns where
/// the last edit ends now, or `Err` if an allocation fails.
#[inline(never)]
fn add_edits<'f>(
    all: &mut Vec<Edit<'f>>,
    at: usize,
    finding: &'f Finding,
) -> Result<usize, AllocError> {
    let mut edits = edits_of(finding)?;
    if edits.is_empty() || !are_after(at, edits.as_slice()) {
        return Ok(at);
    }
    let end = end_after(at, edits.as_slice());
    all.append(&mut edits);
    Ok(end)
}

/// Returns the edits of the faults that are mended in one round.
#[inline(never)]
pub(crate) fn round_edits<'f>(findings: &'f [Finding]) -> Result<Vec<Edit<'f>>, AllocError> {
    let mut all = Vec::new();
    let mut at = 0;
    for finding in findings {
        at = add_edits(&mut all, at, finding)?;
    }
    Ok(all)
}
