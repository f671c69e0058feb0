//! The reading of a call: its pieces, if nothing is wrong with it.

// Extracted from crates/inlined_arguments/src/reading.rt by tools/extract: not to be edited.
// That source has the contracts, and is proved. That this text means the same is only tested.

use crate::proved::call_faults::{call_faults, CallFault, FormatArgument, FormatString};
use crate::proved::rustc_parse_format::Piece;
use crate::shim::alloc::AllocError;
use crate::shim::prelude::*;

/// Returns whether a fault is only a warning.
#[inline]
fn is_warning(fault: &CallFault<'_>) -> bool {
    matches!(fault, CallFault::NameUsedByIndex { .. })
}

/// Returns whether faults are only warnings.
#[inline]
fn are_warnings(faults: &[CallFault<'_>]) -> bool {
    for fault in faults {
        if !is_warning(fault) {
            return false;
        }
    }
    true
}

/// Returns the pieces of the format string of a call, or `None` if something is wrong with the
/// call.
pub(crate) fn read<'a>(
    string: FormatString<'a>,
    arguments: &'a [FormatArgument<'a>],
) -> Result<Option<Vec<Piece<'a>>>, AllocError> {
    let report = call_faults(string, arguments)?;
    if are_warnings(&report.faults) {
        Ok(Some(report.pieces))
    } else {
        Ok(None)
    }
}
