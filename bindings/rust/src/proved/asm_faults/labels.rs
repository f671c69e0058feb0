//! The labels of faults, in rustc's words. A function whose name begins with `push_` adds to the
//! end of `labels`.

// Extracted from crates/asm_faults/src/labels.rt by tools/extract: not to be edited.
// That source has the contracts, and is proved. That this text means the same is only tested.

use crate::proved::asm_faults::checker::AsmCall;
use crate::proved::asm_faults::faults::{AsmFault, AsmSpot};
use crate::proved::asm_faults::lookups::bytes_at;
use crate::proved::asm_faults::operands::{operand_at, Operand};
use crate::proved::asm_faults::titles::never_used;
use crate::proved::rustc_parse_format::{Fault, ParseError};
use crate::shim::alloc::AllocError;
use crate::shim::prelude::*;

/// A label under the source of a call.
#[derive(Debug, PartialEq)]
pub struct AsmLabel {
    /// Where it is.
    pub spot: AsmSpot,
    /// Whether the fault is about this place: it has the sign `^`, and the others have `-`.
    pub is_primary: bool,
    /// Its text, in rustc's words, or an empty one.
    pub text: String,
}

/// Adds a label.
fn push_label(
    labels: &mut Vec<AsmLabel>,
    spot: AsmSpot,
    is_primary: bool,
    text: &str,
) -> Result<(), AllocError> {
    let text = String::from(text);
    labels.push(AsmLabel {
        spot,
        is_primary,
        text,
    });
    Ok(())
}

/// Adds the label of an operand that an index does not mean.
#[inline(never)]
fn push_kind(
    labels: &mut Vec<AsmLabel>,
    index: usize,
    operand: &Operand<'_>,
) -> Result<(), AllocError> {
    let spot = AsmSpot::Operand(index);
    match operand {
        Operand::Unnamed => {}
        Operand::Named(_) => push_label(labels, spot, false, "named argument")?,
        Operand::Register { .. } => push_label(labels, spot, false, "explicit register argument")?,
    }
    Ok(())
}

/// Adds the label of the operand of an index, if there is one, and an index does not mean it.
fn push_kind_at(
    labels: &mut Vec<AsmLabel>,
    index: usize,
    operand: Option<Operand<'_>>,
) -> Result<(), AllocError> {
    if let Some(operand) = operand {
        push_kind(labels, index, &operand)?;
    }
    Ok(())
}

/// Adds the labels of the operands of these indices that an index does not mean.
#[inline(never)]
fn push_kinds(
    labels: &mut Vec<AsmLabel>,
    operands: &[Operand<'_>],
    indices: &[usize],
) -> Result<(), AllocError> {
    let mut rest = indices;
    while let Some((index, others)) = rest.split_first() {
        push_kind_at(labels, *index, operand_at(operands, *index))?;
        rest = others;
    }
    Ok(())
}

/// Adds the labels of an operand without a name, which stands after these others.
fn push_late(
    labels: &mut Vec<AsmLabel>,
    operands: &[Operand<'_>],
    index: usize,
    earlier_operands: &[usize],
) -> Result<(), AllocError> {
    push_label(labels, AsmSpot::Operand(index), true, "positional argument")?;
    push_kinds(labels, operands, earlier_operands)?;
    Ok(())
}

/// Adds the labels of a wrong index of the placeholder at `spot`.
fn push_wrong(
    labels: &mut Vec<AsmLabel>,
    operands: &[Operand<'_>],
    spot: AsmSpot,
    index: usize,
) -> Result<(), AllocError> {
    push_label(labels, spot, true, "from here")?;
    push_kind_at(labels, index, operand_at(operands, index))?;
    Ok(())
}

/// Adds the label of the second range of an error of a template, if it has one.
#[inline(never)]
fn push_second(
    labels: &mut Vec<AsmLabel>,
    template: usize,
    error: &ParseError,
) -> Result<(), AllocError> {
    if let Some((text, span)) = &error.secondary_label {
        let is_same = span.start == error.span.start && span.end == error.span.end;
        push_label(labels, bytes_at(template, span), is_same, text)?;
    }
    Ok(())
}

/// Returns the text of the place of an error of a template.
fn error_text(error: &ParseError) -> Result<String, AllocError> {
    let mut text = String::from(&error.label);
    text.push_str(" in asm template string");
    Ok(text)
}

/// Adds the labels of an error of a template.
#[inline(never)]
fn push_error(
    labels: &mut Vec<AsmLabel>,
    template: usize,
    error: &ParseError,
) -> Result<(), AllocError> {
    let text = error_text(error)?;
    push_label(labels, bytes_at(template, &error.span), true, &text)?;
    push_second(labels, template, error)?;
    Ok(())
}

/// Adds the labels of a fault of a template.
fn push_text(
    labels: &mut Vec<AsmLabel>,
    template: usize,
    fault: &Fault<'_>,
) -> Result<(), AllocError> {
    let error = fault.error()?;
    push_error(labels, template, &error)?;
    Ok(())
}

/// Adds the labels of operands that are not used.
#[inline(never)]
fn push_unused(
    labels: &mut Vec<AsmLabel>,
    operands: &[Operand<'_>],
    unused_indices: &[usize],
) -> Result<(), AllocError> {
    let mut rest = unused_indices;
    while let Some((index, others)) = rest.split_first() {
        let text = never_used(operands, *index);
        push_label(labels, AsmSpot::Operand(*index), true, text)?;
        rest = others;
    }
    Ok(())
}

impl<'a> AsmCall<'a> {
    /// Returns the labels of one of the faults, in rustc's order.
    #[inline(never)]
    pub(crate) fn labels(&self, fault: &AsmFault<'a>) -> Result<Vec<AsmLabel>, AllocError> {
        let mut labels = Vec::new();
        match fault {
            AsmFault::PositionalAfter {
                operand,
                earlier_operands,
            } => {
                push_late(&mut labels, &self.operands, *operand, earlier_operands)?;
            }
            AsmFault::RepeatedName {
                operand,
                first_operand,
            } => {
                let spot = AsmSpot::Operand(*operand);
                push_label(&mut labels, spot, true, "duplicate argument")?;
                let spot = AsmSpot::Operand(*first_operand);
                push_label(&mut labels, spot, false, "previously here")?;
            }
            AsmFault::RegisterName { operand } => {
                push_label(&mut labels, AsmSpot::Operand(*operand), true, "")?;
            }
            AsmFault::WrongIndex { spot, index, .. } => {
                push_wrong(&mut labels, &self.operands, *spot, *index)?;
            }
            AsmFault::MissingName { spot, .. } | AsmFault::LongModifier { spot } => {
                push_label(&mut labels, *spot, true, "")?;
            }
            AsmFault::Text { template, fault } => {
                push_text(&mut labels, *template, fault)?;
            }
            AsmFault::UnusedOperands(unused_indices) => {
                push_unused(&mut labels, &self.operands, unused_indices)?;
            }
        }
        Ok(labels)
    }
}
