//! The check of a call.

// Extracted from crates/asm_faults/src/checker.rt by tools/extract: not to be edited.
// That source has the contracts, and is proved. That this text means the same is only tested.

use crate::proved::asm_faults::comparison::{check_unused, look_up};
use crate::proved::asm_faults::faults::AsmFault;
use crate::proved::asm_faults::lookups::Walk;
use crate::proved::asm_faults::operands::{operands_of, Operand, Operands};
use crate::proved::asm_faults::templates::{push_templates, Template};
use crate::shim::alloc::AllocError;
use crate::shim::prelude::*;

/// A call that was checked.
pub struct AsmCall<'a> {
    /// The operands that are given, of which those whose name is that of an earlier one count as
    /// unnamed.
    pub operands: Vec<Operand<'a>>,
    /// The faults, in the order in which rustc reports them.
    pub faults: Vec<AsmFault<'a>>,
}

/// Adds the faults of templates and operands.
#[inline(never)]
fn compare<'a>(
    faults: &mut Vec<AsmFault<'a>>,
    templates: &[Template<'a>],
    operands: &Operands<'a>,
) -> Result<(), AllocError> {
    let mut walk = Walk {
        lookups: Vec::new(),
        next: 0,
    };
    let fault = push_templates(&mut walk, templates)?;
    look_up(faults, operands, &walk.lookups)?;
    match fault {
        Some(fault) => faults.push(fault),
        None => check_unused(faults, operands, &walk.lookups)?,
    }
    Ok(())
}

/// Checks a call of a macro for inline assembly, as `asm!`: reads its templates, compares their
/// placeholders with the operands that are given, in the order of the source, and returns the
/// faults, as rustc reports them. Placeholders without a position count through all templates.
///
/// With `options(raw)` the templates have no placeholders, so none is to be given here. For each
/// template the number of hashes, the length of the text in bytes, and 2 must together fit into a
/// `usize`.
#[inline(never)]
pub fn asm_faults<'a>(
    templates: &[Template<'a>],
    operands: &[Operand<'a>],
) -> Result<AsmCall<'a>, AllocError> {
    let mut faults = Vec::new();
    let operands = operands_of(&mut faults, operands)?;
    compare(&mut faults, templates, &operands)?;
    Ok(AsmCall {
        operands: operands.slots,
        faults,
    })
}
