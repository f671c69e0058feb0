//! The list of operands of a call.

// Extracted from crates/asm_faults/src/operands.rt by tools/extract: not to be edited.
// That source has the contracts, and is proved. That this text means the same is only tested.

use crate::proved::asm_faults::faults::AsmFault;
use crate::shim::alloc::AllocError;
use crate::shim::prelude::*;
use alloc::collections::BTreeMap;

/// An operand of a call, as far as placeholders can tell it from others.
#[derive(Clone, Copy)]
pub enum Operand<'a> {
    /// It has no name and no register of its own, as `in(reg) x`.
    Unnamed,
    /// It has this name, without the `r#` of a raw identifier, as `a` in `a = in(reg) x`.
    Named(&'a str),
    /// It has a register of its own, as `in("eax") x`, so no placeholder may refer to it.
    Register {
        /// Whether it has a name too, which is a fault.
        has_name: bool,
    },
}

/// The most operands with a name, and the most with a register of their own, whose indices the
/// fault of a later operand has. rustc lists all, so its messages grow with the square of a call.
const MOST: usize = 16;

/// The operands of a call so far.
pub(crate) struct Operands<'a> {
    /// The operands, of which those whose name is that of an earlier one count as unnamed.
    pub slots: Vec<Operand<'a>>,
    /// The index of the operand with each name.
    pub names: BTreeMap<&'a str, usize>,
    /// The indices of those that have a name.
    pub named_operands: Vec<usize>,
    /// The indices of those that have a register of their own.
    pub registers: Vec<usize>,
}

/// Returns no operands. Does not allocate.
fn no_operands<'a>() -> Operands<'a> {
    Operands {
        slots: Vec::new(),
        names: BTreeMap::new(),
        named_operands: Vec::new(),
        registers: Vec::new(),
    }
}

/// Returns the index that a map has for a name, or `None` if it has none.
#[inline]
pub(crate) fn index_of<'a>(names: &BTreeMap<&'a str, usize>, name: &'a str) -> Option<usize> {
    names.get(&name).copied()
}

/// Puts a name into a map that does not have it.
#[inline]
fn insert<'a>(
    names: &mut BTreeMap<&'a str, usize>,
    name: &'a str,
    index: usize,
) -> Result<(), AllocError> {
    names.insert(name, index);
    Ok(())
}

/// Returns the first [`MOST`] of indices.
#[inline]
fn first_of(indices: &[usize]) -> &[usize] {
    &indices[..indices.len().min(MOST)]
}

/// Returns the indices of the first operands that have a name, and then of the first that have a
/// register of their own.
#[inline(never)]
fn others_of(operands: &Operands<'_>) -> Result<Vec<usize>, AllocError> {
    let mut earlier_operands = Vec::new();
    earlier_operands.extend_from_slice(first_of(&operands.named_operands));
    earlier_operands.extend_from_slice(first_of(&operands.registers));
    Ok(earlier_operands)
}

/// Adds the fault of an operand without a name and without a register of its own, if these others
/// stand in front of it.
fn push_late(
    faults: &mut Vec<AsmFault<'_>>,
    operand: usize,
    earlier_operands: Vec<usize>,
) -> Result<(), AllocError> {
    if !earlier_operands.is_empty() {
        faults.push(AsmFault::PositionalAfter {
            operand,
            earlier_operands,
        });
    }
    Ok(())
}

/// Adds an operand without a name and without a register of its own, and its fault if it stands
/// after one that has one of them.
fn add_unnamed<'a>(
    operands: &mut Operands<'a>,
    faults: &mut Vec<AsmFault<'a>>,
    index: usize,
) -> Result<(), AllocError> {
    let earlier_operands = others_of(operands)?;
    push_late(faults, index, earlier_operands)?;
    operands.slots.push(Operand::Unnamed);
    Ok(())
}

/// Adds an operand with a name, or its fault if that is the name of an earlier one, and the operand
/// then counts as unnamed.
#[inline(never)]
fn add_named<'a>(
    operands: &mut Operands<'a>,
    faults: &mut Vec<AsmFault<'a>>,
    index: usize,
    name: &'a str,
) -> Result<(), AllocError> {
    match index_of(&operands.names, name) {
        Some(first_operand) => {
            faults.push(AsmFault::RepeatedName {
                operand: index,
                first_operand,
            });
            operands.slots.push(Operand::Unnamed);
        }
        None => {
            insert(&mut operands.names, name, index)?;
            operands.named_operands.push(index);
            operands.slots.push(Operand::Named(name));
        }
    }
    Ok(())
}

/// Adds an operand with a register of its own, and its fault if it has a name.
#[inline(never)]
fn add_register<'a>(
    operands: &mut Operands<'a>,
    faults: &mut Vec<AsmFault<'a>>,
    index: usize,
    has_name: bool,
) -> Result<(), AllocError> {
    if has_name {
        faults.push(AsmFault::RegisterName { operand: index });
    }
    operands.registers.push(index);
    operands.slots.push(Operand::Register { has_name });
    Ok(())
}

/// Adds an operand, and its fault if it has one.
#[inline(never)]
fn add<'a>(
    operands: &mut Operands<'a>,
    faults: &mut Vec<AsmFault<'a>>,
    index: usize,
    operand: Operand<'a>,
) -> Result<(), AllocError> {
    match operand {
        Operand::Unnamed => add_unnamed(operands, faults, index)?,
        Operand::Named(name) => add_named(operands, faults, index, name)?,
        Operand::Register { has_name } => add_register(operands, faults, index, has_name)?,
    }
    Ok(())
}

/// Returns the operand of an index, or `None` if there is none.
pub(crate) fn operand_at<'a>(operands: &[Operand<'a>], index: usize) -> Option<Operand<'a>> {
    match operands.get(index) {
        Some(operand) => Some(*operand),
        None => None,
    }
}

/// Returns how many operands have neither a name nor a register of their own.
pub(crate) fn count_unnamed(operands: &[Operand<'_>]) -> usize {
    let mut count = 0;
    for operand in operands {
        if let Operand::Unnamed = operand {
            count += 1;
        }
    }
    count
}

/// Returns operands as placeholders refer to them, and adds the faults of their list.
#[inline(never)]
pub(crate) fn operands_of<'a>(
    faults: &mut Vec<AsmFault<'a>>,
    list: &[Operand<'a>],
) -> Result<Operands<'a>, AllocError> {
    let mut operands = no_operands();
    for (index, operand) in list.iter().enumerate() {
        add(&mut operands, faults, index, *operand)?;
    }
    Ok(operands)
}
