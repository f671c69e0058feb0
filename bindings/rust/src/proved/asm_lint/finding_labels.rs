//! The labels of findings, with their ranges in the file.

// Extracted from crates/asm_lint/src/finding_labels.rt by tools/extract: not to be edited.
// That source has the contracts, and is proved. That this text means the same is only tested.

use crate::proved::asm_lint::spans::{range_in, spot_range, Site};
use crate::proved::source_report::Label;
use crate::proved::text_faults::CallLabel;
use crate::shim::alloc::AllocError;
use crate::shim::prelude::*;
use core::ops::Range;

/// Returns labels of a call with their ranges.
#[inline(never)]
pub fn labels(site: Site<'_, '_>, labels: Vec<CallLabel>) -> Result<Vec<Label>, AllocError> {
    let mut list = Vec::new();
    for label in labels {
        list.push(Label {
            range: spot_range(site, label.spot),
            is_primary: label.is_primary,
            text: label.text,
        });
    }
    Ok(list)
}

/// Returns the range of the primary label that comes first in the file, or an empty one if there is
/// none.
#[inline(never)]
pub fn primary_span(site: Site<'_, '_>, labels: &[Label]) -> Range<usize> {
    let mut start = 0;
    let mut end = 0;
    let mut is_found = false;
    for label in labels {
        if label.is_primary && (!is_found || label.range.start < start) {
            start = label.range.start;
            end = label.range.end;
            is_found = true;
        }
    }
    range_in(site.text, start, end)
}
