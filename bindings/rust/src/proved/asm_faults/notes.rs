//! The notes and helps of faults, in rustc's words. A function whose name begins with `push_` or
//! `put_` adds to the end of a list or a text.

// Extracted from crates/asm_faults/src/notes.rt by tools/extract: not to be edited.
// That source has the contracts, and is proved. That this text means the same is only tested.

use crate::proved::asm_faults::checker::AsmCall;
use crate::proved::asm_faults::faults::{AsmFault, AsmSpot};
use crate::proved::asm_faults::operands::{operand_at, Operand};
use crate::proved::asm_faults::titles::{given_name, put_number};
use crate::proved::rustc_parse_format::Fault;
use crate::shim::alloc::AllocError;
use crate::shim::prelude::*;

/// A note or a help of a fault.
#[derive(Debug, PartialEq)]
pub struct AsmNote {
    /// Its text, in rustc's words.
    pub text: String,
    /// The place that it shows. A note without one is a row under the labels, and one with a place
    /// has a drawing of its own.
    pub spot: Option<AsmSpot>,
}

/// Adds a note.
fn push_note(
    notes: &mut Vec<AsmNote>,
    text: &str,
    spot: Option<AsmSpot>,
) -> Result<(), AllocError> {
    let text = String::from(text);
    notes.push(AsmNote { text, spot });
    Ok(())
}

/// Returns the noun for the operands that an index may mean, of which there are so many.
#[inline]
fn noun(operands: &[Operand<'_>], count: usize) -> &'static str {
    if count == operands.len() {
        "argument"
    } else {
        "positional argument"
    }
}

/// Adds so many operands in words.
#[inline(never)]
fn put_count(out: &mut String, count: usize, word: &str) -> Result<(), AllocError> {
    if count == 0 {
        out.push_str("no ");
        out.push_str(word);
        out.push_str("s were given");
        return Ok(());
    }
    if count == 1 {
        out.push_str("there is 1 ");
        out.push_str(word);
        return Ok(());
    }
    out.push_str("there are ");
    put_number(out, count)?;
    out.push_str(" ");
    out.push_str(word);
    out.push_str("s");
    Ok(())
}

/// Adds the note of the operand of an index, if there is one, and an index does not mean it.
#[inline(never)]
fn push_kind(
    notes: &mut Vec<AsmNote>,
    index: usize,
    operand: Option<Operand<'_>>,
) -> Result<(), AllocError> {
    let spot = Some(AsmSpot::Operand(index));
    match operand {
        Some(Operand::Named(_)) => {
            let text = "named arguments cannot be referenced by position";
            push_note(notes, text, spot)?;
        }
        Some(Operand::Register { .. }) => {
            let text = "explicit register arguments cannot be used in the asm template";
            push_note(notes, text, spot)?;
        }
        Some(Operand::Unnamed) | None => {}
    }
    Ok(())
}

/// Returns how many operands an index may mean, in words.
fn count_text(count: usize, word: &str) -> Result<String, AllocError> {
    let mut text = String::new();
    put_count(&mut text, count, word)?;
    Ok(text)
}

/// Adds the notes of a wrong index, where an index may mean so many operands.
#[inline(never)]
fn push_wrong(
    notes: &mut Vec<AsmNote>,
    operands: &[Operand<'_>],
    index: usize,
    count: usize,
) -> Result<(), AllocError> {
    let text = count_text(count, noun(operands, count))?;
    push_note(notes, &text, None)?;
    push_kind(notes, index, operand_at(operands, index))?;
    Ok(())
}

/// Returns the help of a wrong index, or `None` if there is none.
#[inline(never)]
fn wrong_help(operands: &[Operand<'_>], index: usize) -> Result<Option<AsmNote>, AllocError> {
    match operands.get(index) {
        Some(Operand::Register { .. }) => {
            let message = "use the register name directly in the assembly code";
            let text = String::from(message);
            let spot = Some(AsmSpot::Operand(index));
            Ok(Some(AsmNote { text, spot }))
        }
        Some(Operand::Unnamed) | Some(Operand::Named(_)) | None => Ok(None),
    }
}

/// Adds the note of a fault of a template, if it has one.
fn push_text(notes: &mut Vec<AsmNote>, fault: &Fault<'_>) -> Result<(), AllocError> {
    let error = fault.error()?;
    if let Some(note) = &error.note {
        push_note(notes, note, None)?;
    }
    Ok(())
}

/// Adds a name.
#[inline]
fn put_name(out: &mut String, name: &str) -> Result<(), AllocError> {
    out.push_str(name);
    Ok(())
}

/// Adds the position of a placeholder for an operand with this name or this index.
fn put_reference(out: &mut String, index: usize, name: Option<&str>) -> Result<(), AllocError> {
    match name {
        Some(name) => put_name(out, name),
        None => put_number(out, index),
    }
}

/// Adds placeholders of operands.
#[inline(never)]
fn put_placeholders(
    out: &mut String,
    operands: &[Operand<'_>],
    indices: &[usize],
) -> Result<(), AllocError> {
    let mut rest = indices;
    while let Some((index, others)) = rest.split_first() {
        out.push_str(" {");
        put_reference(out, *index, given_name(operands, *index))?;
        out.push_str("}");
        rest = others;
    }
    Ok(())
}

/// Returns how the help of so many operands that are not used begins.
#[inline]
fn unused_start(count: usize) -> &'static str {
    if count == 1 {
        "if this argument is intentionally unused, consider using it in an asm comment: `\"/*"
    } else {
        "if these arguments are intentionally unused, consider using them in an asm comment: `\"/*"
    }
}

/// Returns the help of operands that are not used.
#[inline(never)]
fn unused_help(operands: &[Operand<'_>], unused_indices: &[usize]) -> Result<AsmNote, AllocError> {
    let mut text = String::from(unused_start(unused_indices.len()));
    put_placeholders(&mut text, operands, unused_indices)?;
    text.push_str(" */\"`");
    Ok(AsmNote { text, spot: None })
}

impl<'a> AsmCall<'a> {
    /// Returns the notes of one of the faults, in rustc's order.
    #[inline(never)]
    pub(crate) fn notes(&self, fault: &AsmFault<'a>) -> Result<Vec<AsmNote>, AllocError> {
        let mut notes = Vec::new();
        match fault {
            AsmFault::WrongIndex {
                index,
                positional_count,
                ..
            } => {
                push_wrong(&mut notes, &self.operands, *index, *positional_count)?;
            }
            AsmFault::Text { fault, .. } => push_text(&mut notes, fault)?,
            AsmFault::PositionalAfter { .. }
            | AsmFault::RepeatedName { .. }
            | AsmFault::RegisterName { .. }
            | AsmFault::MissingName { .. }
            | AsmFault::LongModifier { .. }
            | AsmFault::UnusedOperands(_) => {}
        }
        Ok(notes)
    }

    /// Returns the help of one of the faults, or `None` if it has none. rustc says it after the
    /// notes.
    #[inline(never)]
    pub(crate) fn help(&self, fault: &AsmFault<'a>) -> Result<Option<AsmNote>, AllocError> {
        match fault {
            AsmFault::WrongIndex { index, .. } => wrong_help(&self.operands, *index),
            AsmFault::UnusedOperands(unused_indices) => {
                let help = unused_help(&self.operands, unused_indices)?;
                Ok(Some(help))
            }
            AsmFault::PositionalAfter { .. }
            | AsmFault::RepeatedName { .. }
            | AsmFault::RegisterName { .. }
            | AsmFault::MissingName { .. }
            | AsmFault::LongModifier { .. }
            | AsmFault::Text { .. } => Ok(None),
        }
    }
}
