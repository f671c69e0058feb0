//! The report on missing and unused arguments.

// Extracted from crates/placeholder_check/src/checker.rt by tools/extract: not to be edited.
// That source has the contracts, and is proved. That this text means the same is only tested.

use crate::proved::placeholder_check::indices::{members_from, missing_indices};
use crate::proved::placeholder_check::names::{later_names, missing_names, unused_names};
use crate::proved::placeholder_check::uses::{uses_of, Uses};
use crate::proved::rustc_parse_format::Piece;
use crate::shim::alloc::AllocError;
use crate::shim::prelude::*;

/// The arguments that are missing or unused. No list has an entry twice.
#[derive(Clone, Debug, Eq, PartialEq)]
pub struct Report<'a> {
    /// The indices that are used and not given, in ascending order.
    pub missing_index: Vec<usize>,
    /// The names that are used and not given, in the order of their first uses.
    pub missing_name: Vec<&'a str>,
    /// The indices that are given and not used, in ascending order.
    pub unused_index: Vec<usize>,
    /// The names that are given and not used, in the order in which they are first given.
    pub unused_name: Vec<&'a str>,
}

/// Compares the arguments that are used with those that are given, as [`check`] does with those
/// that pieces use.
#[inline(never)]
pub fn check_uses<'a>(
    uses: &Uses<'a>,
    positional: usize,
    names: &[&'a str],
) -> Result<Report<'a>, AllocError> {
    let missing_index = members_from(&uses.indices, positional)?;
    let used_count = uses.indices.count.saturating_sub(missing_index.len());
    let room = positional.saturating_sub(used_count);
    let unused_index = missing_indices(&uses.indices, positional, room)?;
    let later_set = later_names(names)?;
    let missing_name = missing_names(&uses.names.list, names, &later_set)?;
    let unused_name = unused_names(names, &uses.names)?;
    Ok(Report {
        missing_index,
        missing_name,
        unused_index,
        unused_name,
    })
}

/// Compares the arguments that the pieces use with those that are given: `positional` many by
/// position, with the indices from 0, and those in `names` by name.
///
/// The position, the width and the precision of a placeholder can each use an argument, as in the
/// documentation of `std::fmt`; but here an index never refers to an argument that is given by
/// name.
pub fn check<'a>(
    pieces: &[Piece<'a>],
    positional: usize,
    names: &[&'a str],
) -> Result<Report<'a>, AllocError> {
    let uses = uses_of(pieces)?;
    Ok(check_uses(&uses, positional, names)?)
}
