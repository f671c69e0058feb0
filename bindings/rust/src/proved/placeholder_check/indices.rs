//! Sets of indices of arguments. Most indices rise from 0 with the placeholders, so that they are
//! marked in a list; others are in a set. Lists are filled by `push`: `collect` allocates more room
//! first, and less if that fails.

// Extracted from crates/placeholder_check/src/indices.rt by tools/extract: not to be edited.
// That source has the contracts, and is proved. That this text means the same is only tested.

use crate::shim::alloc::AllocError;
use crate::shim::prelude::*;
use alloc::collections::BTreeSet;

/// An index that is this far after the marks, or farther, is not marked.
const GAP: usize = 16;

/// A set of indices.
pub struct Indices {
    /// Whether each of the first indices was marked.
    pub marks: Vec<bool>,
    /// The indices that were too far from the marked ones.
    pub others: BTreeSet<usize>,
    /// The number of indices.
    pub count: usize,
}

/// Returns the empty set. Allocates nothing.
pub fn no_indices() -> Indices {
    Indices {
        marks: Vec::new(),
        others: BTreeSet::new(),
        count: 0,
    }
}

/// Returns whether a set has an index.
pub fn has_index(set: &Indices, index: usize) -> bool {
    match set.marks.get(index) {
        Some(true) => true,
        _ => set.others.contains(&index),
    }
}

/// Marks an index that is not far from those in the list.
#[inline(never)]
fn mark(marks: &mut Vec<bool>, index: usize) -> Result<(), AllocError> {
    for _ in marks.len()..index {
        marks.push(false);
    }
    if index < marks.len() {
        marks[index] = true;
    } else {
        marks.push(true);
    }
    Ok(())
}

/// Adds an index to a set.
#[inline(never)]
pub fn insert_index(set: &mut Indices, index: usize) -> Result<(), AllocError> {
    let is_new = if index.saturating_sub(set.marks.len()) >= GAP {
        set.others.insert(index)
    } else if has_index(set, index) {
        false
    } else {
        mark(&mut set.marks, index)?;
        true
    };
    if is_new {
        set.count = set.count.saturating_add(1);
    }
    Ok(())
}

/// Appends the numbers of a set that are at least `first` to a list, in ascending order.
fn push_from(list: &mut Vec<usize>, set: &BTreeSet<usize>, first: usize) -> Result<(), AllocError> {
    for n in set.iter() {
        if *n >= first {
            list.push(*n);
        }
    }
    Ok(())
}

/// Returns the indices of a set from `first` up to `end`, in ascending order.
fn members_between(set: &Indices, first: usize, end: usize) -> Result<Vec<usize>, AllocError> {
    let mut members = Vec::new();
    for n in first..end {
        if has_index(set, n) {
            members.push(n);
        }
    }
    Ok(members)
}

/// Returns the indices of a set that are at least `first`, in ascending order.
#[inline(never)]
pub fn members_from(set: &Indices, first: usize) -> Result<Vec<usize>, AllocError> {
    let end = set.marks.len();
    let mut members = members_between(set, first, end)?;
    push_from(&mut members, &set.others, first.max(end))?;
    Ok(members)
}

/// Returns the indices below `end` that are not in a set, in ascending order. Allocates room for
/// `room` indices first, since `end` may be the greatest `usize`, and filling the memory before the
/// failure would take minutes.
#[inline(never)]
pub fn missing_indices(set: &Indices, end: usize, room: usize) -> Result<Vec<usize>, AllocError> {
    let mut missing_indices = Vec::with_capacity(room);
    for n in 0..end {
        if !has_index(set, n) {
            missing_indices.push(n);
        }
    }
    Ok(missing_indices)
}
