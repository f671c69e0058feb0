//! The comparison of lookups with the operands.

// Extracted from crates/asm_faults/src/comparison.rt by tools/extract: not to be edited.
// That source has the contracts, and is proved. That this text means the same is only tested.

use crate::proved::asm_faults::faults::AsmFault;
use crate::proved::asm_faults::lookups::Lookup;
use crate::proved::asm_faults::operands::{count_unnamed, index_of, Operand, Operands};
use crate::shim::alloc::AllocError;
use crate::shim::prelude::*;

/// Returns the index of the operand that a lookup means, or `None` if it means none.
#[inline(never)]
fn meant<'a>(operands: &Operands<'a>, lookup: &Lookup<'a>) -> Option<usize> {
    match *lookup {
        Lookup::Index(_, index) => match operands.slots.get(index) {
            Some(Operand::Unnamed) => Some(index),
            Some(Operand::Named(_)) | Some(Operand::Register { .. }) | None => None,
        },
        Lookup::Name(_, name) => index_of(&operands.names, name),
        Lookup::LongModifier(_) => None,
    }
}

/// Returns of each operand whether a lookup means it.
#[inline(never)]
fn marks<'a>(operands: &Operands<'a>, lookups: &[Lookup<'a>]) -> Result<Vec<bool>, AllocError> {
    let mut marks = ::alloc::vec![false; operands.slots.len()];
    for lookup in lookups {
        if let Some(index) = meant(operands, lookup) {
            if index < marks.len() {
                marks[index] = true;
            }
        }
    }
    Ok(marks)
}

/// Returns whether an operand is marked, or has a register of its own.
fn is_settled(marks: &[bool], index: usize, slot: &Operand<'_>) -> bool {
    matches!(slot, Operand::Register { .. }) || matches!(marks.get(index), Some(true))
}

/// Adds the index of an operand, unless it is marked or has a register of its own.
fn push_unmarked(
    unused_indices: &mut Vec<usize>,
    marks: &[bool],
    index: usize,
    slot: &Operand<'_>,
) -> Result<(), AllocError> {
    if !is_settled(marks, index, slot) {
        unused_indices.push(index);
    }
    Ok(())
}

/// Returns the indices of the operands that are not marked, but for those with a register of their
/// own.
#[inline(never)]
fn unmarked_operands(slots: &[Operand<'_>], marks: &[bool]) -> Result<Vec<usize>, AllocError> {
    let mut indices = Vec::new();
    for (index, slot) in slots.iter().enumerate() {
        push_unmarked(&mut indices, marks, index, slot)?;
    }
    Ok(indices)
}

/// Returns the fault of a lookup, or `None` if there is none, where so many operands have neither a
/// name nor a register of their own.
#[inline(never)]
fn fault_of<'a>(
    operands: &Operands<'a>,
    positional_count: usize,
    lookup: &Lookup<'a>,
) -> Option<AsmFault<'a>> {
    match *lookup {
        Lookup::Index(spot, index) => match operands.slots.get(index) {
            Some(Operand::Unnamed) => None,
            Some(Operand::Named(_)) | Some(Operand::Register { .. }) | None => {
                Some(AsmFault::WrongIndex {
                    spot,
                    index,
                    positional_count,
                })
            }
        },
        Lookup::Name(spot, name) => match index_of(&operands.names, name) {
            Some(_) => None,
            None => Some(AsmFault::MissingName { spot, name }),
        },
        Lookup::LongModifier(spot) => Some(AsmFault::LongModifier { spot }),
    }
}

/// Adds the faults of lookups.
#[inline(never)]
pub(crate) fn look_up<'a>(
    faults: &mut Vec<AsmFault<'a>>,
    operands: &Operands<'a>,
    lookups: &[Lookup<'a>],
) -> Result<(), AllocError> {
    let positional_count = count_unnamed(&operands.slots);
    for lookup in lookups {
        if let Some(fault) = fault_of(operands, positional_count, lookup) {
            faults.push(fault);
        }
    }
    Ok(())
}

/// Adds the fault of unused operands, if there are any.
fn push_unused(
    faults: &mut Vec<AsmFault<'_>>,
    unused_indices: Vec<usize>,
) -> Result<(), AllocError> {
    if !unused_indices.is_empty() {
        faults.push(AsmFault::UnusedOperands(unused_indices));
    }
    Ok(())
}

/// Adds the fault of the operands that no lookup means, if there are any.
#[inline(never)]
pub(crate) fn check_unused<'a>(
    faults: &mut Vec<AsmFault<'a>>,
    operands: &Operands<'a>,
    lookups: &[Lookup<'a>],
) -> Result<(), AllocError> {
    let marks = marks(operands, lookups)?;
    let unused_indices = unmarked_operands(&operands.slots, &marks)?;
    push_unused(faults, unused_indices)?;
    Ok(())
}
