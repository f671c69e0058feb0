//! Sets of names, in the order in which they were added. The names after the first few are in an
//! ordered set too, since a text may be hostile and the kit's hash has a fixed seed.

// Extracted from crates/placeholder_check/src/names.rt by tools/extract: not to be edited.
// That source has the contracts, and is proved. That this text means the same is only tested.

use crate::shim::alloc::AllocError;
use crate::shim::prelude::*;
use alloc::collections::BTreeSet;

/// The number of names that are compared one after the other.
const SCAN_LIMIT: usize = 16;

/// Names, each once, in the order in which they were first added.
pub struct Names<'a> {
    /// The names.
    pub list: Vec<&'a str>,
    /// The names after the first [`SCAN_LIMIT`].
    pub later_set: BTreeSet<&'a str>,
}

/// Returns the empty set. Allocates nothing.
pub fn no_names<'a>() -> Names<'a> {
    Names {
        list: Vec::new(),
        later_set: BTreeSet::new(),
    }
}

/// Returns whether two names are the same.
#[inline]
fn is_same(a: &str, b: &str) -> bool {
    a == b
}

/// Returns whether a name is among the first [`SCAN_LIMIT`] of a list.
fn is_early(names: &[&str], name: &str) -> bool {
    for i in 0..names.len().min(SCAN_LIMIT) {
        if is_same(name, names[i]) {
            return true;
        }
    }
    false
}

/// Returns whether a name is in a set of names.
#[inline]
fn is_later<'a>(later_set: &BTreeSet<&'a str>, name: &'a str) -> bool {
    later_set.contains(&name)
}

/// Returns whether a name is among others, of which `later_set` has those after the first
/// [`SCAN_LIMIT`].
#[inline]
fn has_name<'a>(names: &[&'a str], later_set: &BTreeSet<&'a str>, name: &'a str) -> bool {
    is_early(names, name) || is_later(later_set, name)
}

/// Inserts a name into a set.
#[inline]
fn insert_later<'a>(set: &mut BTreeSet<&'a str>, name: &'a str) -> Result<(), AllocError> {
    set.insert(name);
    Ok(())
}

/// Adds a name to others, if it is not yet there.
#[inline(never)]
pub fn insert_name<'a>(names: &mut Names<'a>, name: &'a str) -> Result<(), AllocError> {
    if has_name(&names.list, &names.later_set, name) {
        return Ok(());
    }
    if names.list.len() >= SCAN_LIMIT {
        insert_later(&mut names.later_set, name)?;
    }
    names.list.push(name);
    Ok(())
}

/// Returns the names of a list after the first [`SCAN_LIMIT`].
#[inline(never)]
pub fn later_names<'a>(names: &[&'a str]) -> Result<BTreeSet<&'a str>, AllocError> {
    let mut later_set = BTreeSet::new();
    for i in SCAN_LIMIT..names.len() {
        insert_later(&mut later_set, names[i])?;
    }
    Ok(later_set)
}

/// Returns the names of a list that are not among others, in their order; `later_set` has those of
/// the others after the first [`SCAN_LIMIT`].
#[inline(never)]
pub fn missing_names<'a>(
    names: &[&'a str],
    others: &[&'a str],
    later_set: &BTreeSet<&'a str>,
) -> Result<Vec<&'a str>, AllocError> {
    let mut missing_names = Vec::new();
    for name in names {
        if !has_name(others, later_set, name) {
            missing_names.push(*name);
        }
    }
    Ok(missing_names)
}

/// Returns the names of a list that are not in a set, each once, in the order of their first
/// entries.
#[inline(never)]
pub fn unused_names<'a>(names: &[&'a str], uses: &Names<'a>) -> Result<Vec<&'a str>, AllocError> {
    let mut unused_set = no_names();
    for name in names {
        if !has_name(&uses.list, &uses.later_set, name) {
            insert_name(&mut unused_set, name)?;
        }
    }
    let Names { list, later_set: _ } = unused_set;
    Ok(list)
}
