//! Labels of ranges of the source.

// Extracted from crates/drawn_labels/src/labels.rt by tools/extract: not to be edited.
// That source has the contracts, and is proved. That this text means the same is only tested.

use crate::proved::drawn_labels::mark::Mark;
use crate::proved::drawn_lines::{shift, Extent, Frame};

/// A label of a range of the source.
#[derive(Clone, Copy)]
pub struct Label<'a> {
    /// The sign under its columns.
    pub sign: char,
    /// Its text.
    pub text: &'a str,
    /// Where it is.
    pub extent: Extent,
}

/// Returns a label in the line in which it begins.
pub fn mark_of<'a>(label: &Label<'a>, first: usize) -> Mark<'a> {
    let start = label.extent.start;
    let end = label.extent.end;
    let first_column = start.column.saturating_sub(first);
    let end_column = if end.line == start.line {
        end.column.saturating_sub(first)
    } else {
        0
    };
    Mark {
        line: start.line,
        start: first_column,
        end: end_column.max(first_column + 1),
        sign: label.sign,
        text: label.text,
    }
}

/// Returns a label as it is drawn in the line in which it begins.
#[inline]
pub fn mark_in<'a>(frame: &Frame<'_>, label: &Label<'a>) -> Mark<'a> {
    mark_of(label, shift(frame, label.extent.start.line))
}
