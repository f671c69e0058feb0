//! How far below the signs of a line the texts of labels hang.

// Extracted from crates/drawn_labels/src/hanging.rt by tools/extract: not to be edited.
// That source has the contracts, and is proved. That this text means the same is only tested.

use crate::proved::drawn_labels::mark::Mark;
use crate::shim::alloc::AllocError;
use crate::shim::prelude::*;

/// A label, and how many rows below the signs its text hangs: it stands right of them if that is
/// none.
#[derive(Clone, Copy)]
pub struct HungLabel<'a> {
    pub mark: Mark<'a>,
    pub depth: usize,
}

/// Returns whether a label has a text.
#[inline]
pub fn has_text(mark: &Mark<'_>) -> bool {
    !mark.text.is_empty()
}

/// Returns whether one of two labels begins within the other.
fn is_meeting(n: &Mark<'_>, m: &Mark<'_>) -> bool {
    (m.start <= n.start && n.start < m.end) || (n.start <= m.start && m.start < n.end)
}

/// Returns whether the label `n` has no text, and the columns of `m`.
fn is_shadow(n: &Mark<'_>, m: &Mark<'_>) -> bool {
    (n.start == m.start && n.end == m.end) && !has_text(n)
}

/// Returns whether the text of a label cannot stand right of its signs, since it meets one of
/// others.
fn is_crossed(mark: &Mark<'_>, others: &[Mark<'_>]) -> bool {
    if !has_text(mark) {
        return false;
    }
    for other in others {
        if is_meeting(other, mark) && !is_shadow(other, mark) {
            return true;
        }
    }
    false
}

/// Returns whether the text of the label `n`, right of its signs, would come within a column of
/// `m`.
fn is_reaching(n: &Mark<'_>, m: &Mark<'_>) -> bool {
    let columns = m.start.saturating_sub(n.end).saturating_sub(1);
    has_text(n)
        && ((m.start <= n.start && n.start < m.end)
            || (n.start <= m.start && columns <= n.text.len()))
}

/// Returns whether the texts of labels hang a row below that of a label right of them, which hangs
/// `least_depth` rows below the signs.
fn is_lowering(least_depth: usize, mark: &Mark<'_>, others: &[Mark<'_>]) -> bool {
    for other in others {
        if is_reaching(other, mark)
            && (has_text(mark) || (other.end <= mark.end && least_depth == 0))
        {
            return true;
        }
    }
    false
}

/// Returns how far down the text of a label hangs, where those right of it hang `least_depth` rows
/// down.
fn depth_of(least_depth: usize, mark: &Mark<'_>, others: &[Mark<'_>]) -> usize {
    if least_depth == 0 && is_crossed(mark, others) {
        1
    } else {
        least_depth
    }
}

/// Returns how far down the texts of labels left of a label hang at least.
#[inline]
fn depth_after(least_depth: usize, mark: &Mark<'_>, others: &[Mark<'_>]) -> usize {
    if is_lowering(least_depth, mark, others) {
        least_depth + 1
    } else {
        least_depth
    }
}

/// Returns the labels of a line, from right to left, with how far down they hang.
pub fn hung_labels<'a>(marks: &[Mark<'a>]) -> Result<Vec<HungLabel<'a>>, AllocError> {
    if marks.len() >= 1 << (usize::BITS - 5) {
        return crate::shim::alloc::refuse();
    }
    let mut list = Vec::new();
    let mut least_depth = 0;
    for mark in marks {
        let others = &marks[list.len() + 1..];
        let depth = depth_of(least_depth, mark, others);
        least_depth = depth_after(depth, mark, others);
        list.push(HungLabel { mark: *mark, depth });
    }
    Ok(list)
}

/// Returns how far down the text of a label hangs.
#[inline]
fn text_depth(label: &HungLabel<'_>) -> usize {
    if has_text(&label.mark) {
        label.depth
    } else {
        0
    }
}

/// Returns how far down the texts of labels hang at most.
pub fn depth(labels: &[HungLabel<'_>]) -> usize {
    let mut max_depth = 0;
    for first in labels {
        max_depth = text_depth(first).max(max_depth);
    }
    max_depth
}
