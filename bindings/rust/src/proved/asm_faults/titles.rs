//! The ids and the titles of faults, in rustc's words. A function whose name begins with `put_`
//! appends to `out`.

// Extracted from crates/asm_faults/src/titles.rt by tools/extract: not to be edited.
// That source has the contracts, and is proved. That this text means the same is only tested.

use crate::proved::asm_faults::checker::AsmCall;
use crate::proved::asm_faults::faults::AsmFault;
use crate::proved::asm_faults::operands::Operand;
use crate::proved::rustc_parse_format::Fault;
use crate::shim::alloc::AllocError;
use crate::shim::itoa::Buffer;
use crate::shim::prelude::*;

impl AsmFault<'_> {
    /// Returns the id of the fault in kebab case, as `wrong-operand`: the same for all faults of a
    /// kind. A fault of a template has the id of its [`Fault`]. Does not allocate.
    #[inline(never)]
    pub fn id(&self) -> &'static str {
        match self {
            AsmFault::PositionalAfter { .. } => "operand-order",
            AsmFault::RepeatedName { .. } => "repeated-name",
            AsmFault::RegisterName { .. } => "register-name",
            AsmFault::WrongIndex { .. } => "wrong-operand",
            AsmFault::MissingName { .. } => "missing-name",
            AsmFault::LongModifier { .. } => "long-modifier",
            AsmFault::Text { fault, .. } => fault.id(),
            AsmFault::UnusedOperands(_) => "unused-argument",
        }
    }
}

/// Adds a number in decimal digits.
pub(crate) fn put_number(out: &mut String, number: usize) -> Result<(), AllocError> {
    let mut digits = Buffer::new();
    out.push_str(digits.format(number));
    Ok(())
}

/// Adds a text and a name between backquotes.
fn put_named(out: &mut String, text: &str, name: &str) -> Result<(), AllocError> {
    out.push_str(text);
    out.push_str("`");
    out.push_str(name);
    out.push_str("`");
    Ok(())
}

/// Returns the name of an operand, or `None` if it has none or a register of its own.
#[inline(never)]
pub(crate) fn given_name<'a>(operands: &[Operand<'a>], index: usize) -> Option<&'a str> {
    match operands.get(index) {
        Some(Operand::Named(name)) => Some(*name),
        Some(Operand::Unnamed) | Some(Operand::Register { .. }) | None => None,
    }
}

/// Returns the name of an operand, or an empty text if it has none.
fn name_of<'a>(operands: &[Operand<'a>], index: usize) -> &'a str {
    match given_name(operands, index) {
        Some(name) => name,
        None => "",
    }
}

/// Returns the label of an operand that is not used.
#[inline(never)]
pub(crate) fn never_used(operands: &[Operand<'_>], index: usize) -> &'static str {
    match operands.get(index) {
        Some(Operand::Named(_)) => "named argument never used",
        Some(Operand::Unnamed) | Some(Operand::Register { .. }) | None => "argument never used",
    }
}

/// Returns the title of operands that are not used.
fn unused_title(operands: &[Operand<'_>], unused_indices: &[usize]) -> &'static str {
    match unused_indices {
        [index] => never_used(operands, *index),
        _ => "multiple unused asm arguments",
    }
}

/// Adds the title of a fault of a template.
fn put_text_title(out: &mut String, fault: &Fault<'_>) -> Result<(), AllocError> {
    let error = fault.error()?;
    out.push_str("invalid asm template string: ");
    out.push_str(&error.description);
    Ok(())
}

/// Adds the title of a wrong index.
fn put_index_title(out: &mut String, index: usize) -> Result<(), AllocError> {
    out.push_str("invalid reference to argument at index ");
    put_number(out, index)?;
    Ok(())
}

impl<'a> AsmCall<'a> {
    /// Adds the title of one of the faults to the end of `out`, as rustc has it.
    #[inline(never)]
    pub(crate) fn put_title(
        &self,
        out: &mut String,
        fault: &AsmFault<'a>,
    ) -> Result<(), AllocError> {
        match fault {
            AsmFault::PositionalAfter { .. } => {
                out.push_str(
                    "positional arguments cannot follow named arguments or explicit register \
                     arguments",
                );
                Ok(())
            }
            AsmFault::RepeatedName { first_operand, .. } => put_named(
                out,
                "duplicate argument named ",
                name_of(&self.operands, *first_operand),
            ),
            AsmFault::RegisterName { .. } => {
                out.push_str("explicit register arguments cannot have names");
                Ok(())
            }
            AsmFault::WrongIndex { index, .. } => put_index_title(out, *index),
            AsmFault::MissingName { name, .. } => {
                put_named(out, "there is no argument named ", name)?;
                Ok(())
            }
            AsmFault::LongModifier { .. } => {
                out.push_str("asm template modifier must be a single character");
                Ok(())
            }
            AsmFault::Text { fault, .. } => put_text_title(out, fault),
            AsmFault::UnusedOperands(unused_indices) => {
                out.push_str(unused_title(&self.operands, unused_indices));
                Ok(())
            }
        }
    }
}
