//! The comparison of lookups with the arguments that count.

// Extracted from crates/call_faults/src/comparison.rt by tools/extract: not to be edited.
// That source has the contracts, and is proved. That this text means the same is only tested.

use crate::proved::call_faults::arguments::{index_of, insert, Arguments, Entry};
use crate::proved::call_faults::faults::{CallFault, InvalidReference, Part};
use crate::proved::call_faults::lookups::{ArgRef, Lookup};
use crate::shim::alloc::AllocError;
use crate::shim::prelude::*;
use alloc::collections::BTreeMap;

/// Returns the index of the argument that a lookup means, or `None` if it means none.
#[inline(never)]
fn meant<'a>(arguments: &Arguments<'a>, lookup: &Lookup<'a>) -> Option<usize> {
    match *lookup {
        Lookup::Refer(_, ArgRef::Index(n)) => arguments.list.get(n).map(|entry| entry.index),
        Lookup::Refer(_, ArgRef::Name(name)) => index_of(&arguments.indices, name),
        Lookup::NoTrait(..) => None,
    }
}

/// Returns of each argument whether a lookup means it, if there are `count` ones.
#[inline(never)]
fn marks<'a>(
    arguments: &Arguments<'a>,
    count: usize,
    lookups: &[Lookup<'a>],
) -> Result<Vec<bool>, AllocError> {
    let mut marks = ::alloc::vec![false; count];
    for lookup in lookups {
        if let Some(index) = meant(arguments, lookup) {
            if index < marks.len() {
                marks[index] = true;
            }
        }
    }
    Ok(marks)
}

/// Returns the reference of a lookup, if it is one by an index that is at least `count`.
#[inline(never)]
fn reference_beyond(count: usize, lookup: &Lookup<'_>) -> Option<InvalidReference> {
    match *lookup {
        Lookup::Refer(reference, ArgRef::Index(index)) if index >= count => {
            Some(InvalidReference { reference, index })
        }
        _ => None,
    }
}

/// Returns the references by an index that is at least `count`.
#[inline(never)]
fn references_from(
    count: usize,
    lookups: &[Lookup<'_>],
) -> Result<Vec<InvalidReference>, AllocError> {
    let mut references = Vec::new();
    for lookup in lookups {
        if let Some(reference) = reference_beyond(count, lookup) {
            references.push(reference);
        }
    }
    Ok(references)
}

/// Returns the arguments that are not marked.
#[inline(never)]
fn unmarked_arguments<'a>(
    arguments: &[Entry<'a>],
    marks: &[bool],
) -> Result<Vec<Entry<'a>>, AllocError> {
    let mut list = Vec::new();
    for entry in arguments {
        if !matches!(marks.get(entry.index), Some(true)) {
            list.push(*entry);
        }
    }
    Ok(list)
}

/// Adds the fault of a lookup: of a trait that does not exist, or of a name that no variable is
/// captured for and that `indices` does not have, which it is then put into.
#[inline(never)]
fn look_up_one<'a>(
    faults: &mut Vec<CallFault<'a>>,
    indices: &mut BTreeMap<&'a str, usize>,
    captures_variables: bool,
    lookup: &Lookup<'a>,
) -> Result<(), AllocError> {
    match *lookup {
        Lookup::NoTrait(piece, ty) => faults.push(CallFault::UnknownTrait { piece, ty }),
        Lookup::Refer(reference, ArgRef::Name(name)) => {
            if !captures_variables && index_of(indices, name).is_none() {
                insert(indices, name, 0)?;
                faults.push(CallFault::MissingName { reference, name });
            }
        }
        Lookup::Refer(_, ArgRef::Index(_)) => {}
    }
    Ok(())
}

/// Adds the faults of lookups, one after the other.
fn look_up<'a>(
    faults: &mut Vec<CallFault<'a>>,
    indices: &mut BTreeMap<&'a str, usize>,
    captures_variables: bool,
    lookups: &[Lookup<'a>],
) -> Result<(), AllocError> {
    for lookup in lookups {
        look_up_one(faults, indices, captures_variables, lookup)?;
    }
    Ok(())
}

/// Returns whether a name is missing.
fn misses_name(faults: &[CallFault<'_>]) -> bool {
    for fault in faults {
        if let CallFault::MissingName { .. } = fault {
            return true;
        }
    }
    false
}

/// Returns a map that has the names that are the positions of placeholders.
#[inline(never)]
fn positions_of<'a>(lookups: &[Lookup<'a>]) -> Result<BTreeMap<&'a str, usize>, AllocError> {
    let mut names = BTreeMap::new();
    for lookup in lookups {
        if let Lookup::Refer(reference, ArgRef::Name(name)) = lookup {
            if matches!(reference.part, Part::Position) {
                insert(&mut names, name, 0)?;
            }
        }
    }
    Ok(names)
}

/// Returns whether an argument has no name, and is a variable whose name a map has.
#[inline(never)]
fn is_redundant<'a>(positions: &BTreeMap<&'a str, usize>, entry: &Entry<'a>) -> bool {
    match (entry.argument.name, entry.argument.variable) {
        (None, Some(variable)) => index_of(positions, variable).is_some(),
        _ => false,
    }
}

/// Returns the indices of the redundant ones of arguments that no lookup means.
#[inline(never)]
fn redundant_of<'a>(
    unused_entries: &[Entry<'a>],
    lookups: &[Lookup<'a>],
) -> Result<Vec<usize>, AllocError> {
    let mut redundant_indices = Vec::new();
    if unused_entries.is_empty() {
        return Ok(redundant_indices);
    }
    let positions = positions_of(lookups)?;
    for entry in unused_entries {
        if is_redundant(&positions, entry) {
            redundant_indices.push(entry.index);
        }
    }
    Ok(redundant_indices)
}

/// Returns the indices of arguments.
pub(crate) fn indices_of(arguments: &[Entry<'_>]) -> Result<Vec<usize>, AllocError> {
    let mut indices = Vec::new();
    for entry in arguments {
        indices.push(entry.index);
    }
    Ok(indices)
}

/// Adds the fault of arguments that no lookup means: of the redundant ones, or else of all.
#[inline(never)]
fn push_unused_faults<'a>(
    faults: &mut Vec<CallFault<'a>>,
    unused_entries: &[Entry<'a>],
    lookups: &[Lookup<'a>],
) -> Result<(), AllocError> {
    let redundant_indices = redundant_of(unused_entries, lookups)?;
    if !redundant_indices.is_empty() {
        faults.push(CallFault::RedundantArguments(redundant_indices));
        return Ok(());
    }
    let unused_indices = indices_of(unused_entries)?;
    if !unused_indices.is_empty() {
        faults.push(CallFault::UnusedArguments(unused_indices));
    }
    Ok(())
}

/// Returns the fault of a lookup, if it means an argument with a name by its index.
#[inline(never)]
fn by_index<'a>(arguments: &[Entry<'a>], lookup: &Lookup<'a>) -> Option<CallFault<'a>> {
    match *lookup {
        Lookup::Refer(reference, ArgRef::Index(n)) => match arguments.get(n) {
            Some(entry) if entry.argument.name.is_some() => Some(CallFault::NameUsedByIndex {
                reference,
                index: entry.index,
            }),
            _ => None,
        },
        _ => None,
    }
}

/// Adds the faults of lookups that mean an argument with a name by its index.
fn push_index_faults<'a>(
    faults: &mut Vec<CallFault<'a>>,
    arguments: &[Entry<'a>],
    lookups: &[Lookup<'a>],
) -> Result<(), AllocError> {
    for lookup in lookups {
        if let Some(fault) = by_index(arguments, lookup) {
            faults.push(fault);
        }
    }
    Ok(())
}

/// Adds the fault of references by an index that is too large, if there are any.
fn push_missing_fault(
    faults: &mut Vec<CallFault<'_>>,
    references: Vec<InvalidReference>,
) -> Result<(), AllocError> {
    if !references.is_empty() {
        faults.push(CallFault::MissingArguments(references));
    }
    Ok(())
}

/// Returns whether neither a name is missing, nor an argument, nor is one unused.
fn is_settled(
    faults: &[CallFault<'_>],
    references: &[InvalidReference],
    entries: &[Entry<'_>],
) -> bool {
    !misses_name(faults) && references.is_empty() && entries.is_empty()
}

/// Adds what is wrong between the arguments that count, whose indices are below `count`, and
/// lookups.
#[inline(never)]
pub(crate) fn compare<'a>(
    faults: &mut Vec<CallFault<'a>>,
    captures_variables: bool,
    arguments: &mut Arguments<'a>,
    count: usize,
    lookups: &[Lookup<'a>],
) -> Result<(), AllocError> {
    let marks = marks(arguments, count, lookups)?;
    let rest = unmarked_arguments(&arguments.list, &marks)?;
    let references = references_from(arguments.list.len(), lookups)?;
    let mut list = Vec::new();
    look_up(
        &mut list,
        &mut arguments.indices,
        captures_variables,
        lookups,
    )?;
    let is_settled = is_settled(&list, &references, &rest);
    faults.append(&mut list);
    push_missing_fault(faults, references)?;
    push_unused_faults(faults, &rest, lookups)?;
    if !is_settled {
        return Ok(());
    }
    push_index_faults(faults, &arguments.list, lookups)?;
    Ok(())
}
