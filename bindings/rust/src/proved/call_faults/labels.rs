//! The labels of faults, in rustc's words. A function whose name begins with `push_` adds to the
//! end of `labels`.

// Extracted from crates/call_faults/src/labels.rt by tools/extract: not to be edited.
// That source has the contracts, and is proved. That this text means the same is only tested.

use crate::proved::call_faults::arguments::FormatArgument;
use crate::proved::call_faults::checker::CallReport;
use crate::proved::call_faults::faults::{CallFault, Reference};
use crate::proved::call_faults::missing_labels::{few_labels, push_missing};
use crate::proved::call_faults::spots::{
    bytes_at, named_spot, push_plain, push_primary, push_secondary, type_spot, use_spot,
};
use crate::proved::call_faults::titles::{have_numbers, name_of, never_used, put_name_between};
use crate::proved::rustc_parse_format::{Fault, ParseError, Suggestion};
use crate::proved::text_faults::{CallLabel, Spot};
use crate::shim::alloc::AllocError;
use crate::shim::prelude::*;
use core::ops::Range;

/// Returns the label of an argument with a name in front of one without.
#[inline]
fn named_text() -> &'static str {
    "named argument"
}

/// Adds the labels of arguments that have a name.
#[inline(never)]
fn push_named(labels: &mut Vec<CallLabel>, named_arguments: &[usize]) -> Result<(), AllocError> {
    let mut rest = named_arguments;
    while let Some((index, others)) = rest.split_first() {
        push_secondary(labels, Spot::Argument(*index), named_text())?;
        rest = others;
    }
    Ok(())
}

/// Adds the label of a second range of an error.
#[inline(never)]
fn push_second_label(
    labels: &mut Vec<CallLabel>,
    error: &ParseError,
    span: &Range<usize>,
    text: &str,
) -> Result<(), AllocError> {
    if span.start == error.span.start && span.end == error.span.end {
        push_primary(labels, bytes_at(span), text)?;
    } else {
        push_secondary(labels, bytes_at(span), text)?;
    }
    Ok(())
}

/// Adds a help that is drawn as a label.
#[inline(never)]
fn push_inline_help(labels: &mut Vec<CallLabel>, error: &ParseError) -> Result<(), AllocError> {
    match &error.suggestion {
        Suggestion::RemoveRawIdent(span) => {
            push_second_label(labels, error, span, "help: remove the `r#`")?;
        }
        Suggestion::AddMissingColon(span) => {
            let text = "help: add a colon before the format specifier: `:?`";
            push_second_label(labels, error, span, text)?;
        }
        Suggestion::None
        | Suggestion::UsePositional
        | Suggestion::ReorderFormatParameter(..)
        | Suggestion::UseRustDebugPrintingMacro => {}
    }
    Ok(())
}

/// Adds the second label of an error of the string.
#[inline(never)]
fn push_second(labels: &mut Vec<CallLabel>, error: &ParseError) -> Result<(), AllocError> {
    match &error.secondary_label {
        None => push_inline_help(labels, error)?,
        Some((text, span)) => push_second_label(labels, error, span, text)?,
    }
    Ok(())
}

/// Adds the labels of a fault of the string.
#[inline(never)]
fn push_text(labels: &mut Vec<CallLabel>, fault: &Fault<'_>) -> Result<(), AllocError> {
    let error = fault.error()?;
    let mut text = String::from(&error.label);
    text.push_str(" in format string");
    push_primary(labels, bytes_at(&error.span), &text)?;
    push_second(labels, &error)?;
    Ok(())
}

/// Adds the labels of arguments that are not used.
#[inline(never)]
fn push_unused(
    labels: &mut Vec<CallLabel>,
    arguments: &[FormatArgument<'_>],
    unused_indices: &[usize],
) -> Result<(), AllocError> {
    let mut rest = unused_indices;
    while let Some((index, others)) = rest.split_first() {
        push_primary(labels, Spot::Value(*index), never_used(arguments, *index))?;
        rest = others;
    }
    Ok(())
}

/// Returns the label of a literal that lacks a placeholder.
#[inline]
fn single_text() -> &'static str {
    "formatting specifier missing"
}

/// Adds the labels of an argument that is not used, and that of the literal.
#[inline(never)]
fn push_one_unused(
    labels: &mut Vec<CallLabel>,
    arguments: &[FormatArgument<'_>],
    index: usize,
) -> Result<(), AllocError> {
    push_primary(labels, Spot::Value(index), never_used(arguments, index))?;
    push_secondary(labels, Spot::Literal, single_text())?;
    Ok(())
}

/// Returns the label of a literal that lacks several placeholders.
#[inline]
fn several_text() -> &'static str {
    "multiple missing formatting specifiers"
}

/// Adds the labels of several arguments that are not used, and that of the literal.
fn push_many_unused(
    labels: &mut Vec<CallLabel>,
    arguments: &[FormatArgument<'_>],
    unused_indices: &[usize],
) -> Result<(), AllocError> {
    push_secondary(labels, Spot::Literal, several_text())?;
    push_unused(labels, arguments, unused_indices)?;
    Ok(())
}

/// Adds the labels of arguments that are not used, and that of the literal.
fn push_unused_and_literal(
    labels: &mut Vec<CallLabel>,
    arguments: &[FormatArgument<'_>],
    unused_indices: &[usize],
) -> Result<(), AllocError> {
    match unused_indices {
        [index] => push_one_unused(labels, arguments, *index)?,
        _ => push_many_unused(labels, arguments, unused_indices)?,
    }
    Ok(())
}

/// Returns whether an argument is the last one.
#[inline]
pub(crate) fn is_last(arguments: &[FormatArgument<'_>], index: usize) -> bool {
    arguments.len().saturating_sub(index) == 1
}

/// Returns whether one of these arguments has a name.
pub(crate) fn have_names(arguments: &[FormatArgument<'_>]) -> bool {
    for first in arguments {
        if first.name.is_some() {
            return true;
        }
    }
    false
}

/// Returns the label of an argument that is left out.
#[inline]
fn removal_text() -> &'static str {
    "help: this can be removed"
}

/// Adds the labels of an argument that is left out, which is not the last one.
fn push_removal_up_to_next(labels: &mut Vec<CallLabel>, index: usize) -> Result<(), AllocError> {
    push_secondary(labels, Spot::ValueUpToNext(index), removal_text())?;
    push_plain(labels, Spot::Value(index))?;
    Ok(())
}

/// Adds the labels of an argument that is left out.
#[inline(never)]
fn push_removal(
    labels: &mut Vec<CallLabel>,
    arguments: &[FormatArgument<'_>],
    index: usize,
) -> Result<(), AllocError> {
    if is_last(arguments, index) {
        push_primary(labels, Spot::Value(index), removal_text())?;
    } else {
        push_removal_up_to_next(labels, index)?;
    }
    Ok(())
}

/// Adds labels without a text of the values of redundant arguments.
#[inline(never)]
fn push_bare(labels: &mut Vec<CallLabel>, indices: &[usize]) -> Result<(), AllocError> {
    let mut rest = indices;
    while let Some((index, others)) = rest.split_first() {
        push_plain(labels, Spot::Value(*index))?;
        rest = others;
    }
    Ok(())
}

/// Adds the labels of redundant arguments.
fn push_redundant(
    labels: &mut Vec<CallLabel>,
    arguments: &[FormatArgument<'_>],
    redundant_indices: &[usize],
) -> Result<(), AllocError> {
    if let [index] = redundant_indices {
        if !have_names(arguments) {
            return push_removal(labels, arguments, *index);
        }
    }
    push_bare(labels, redundant_indices)
}

/// Returns the label of an argument with a name that is used by its index.
#[inline]
fn by_index_text() -> &'static str {
    "this named argument is referred to by position in formatting string"
}

/// Returns the label of the use by index of an argument with a name.
fn use_text(name: &str) -> Result<String, AllocError> {
    let mut text = String::new();
    let front = "this formatting argument uses named argument ";
    put_name_between(&mut text, front, name, " by position")?;
    Ok(text)
}

/// Adds the labels of the use by index of an argument with a name.
#[inline(never)]
fn push_by_index(
    labels: &mut Vec<CallLabel>,
    call: &CallReport<'_>,
    reference: Reference,
    index: usize,
) -> Result<(), AllocError> {
    let text = use_text(name_of(call.arguments, index))?;
    let places = call.parser.arg_places();
    let spot = use_spot(&call.pieces, &call.counts, places, reference);
    push_primary(labels, Spot::Name(index), by_index_text())?;
    push_secondary(labels, spot, &text)?;
    Ok(())
}

impl<'a> CallReport<'a> {
    /// Returns the labels of one of the faults, as rustc has them. The primary label that begins
    /// first in the source is where rustc says that the fault is. A fault of the string has the
    /// labels of its error.
    #[inline(never)]
    pub(crate) fn labels(&self, fault: &CallFault<'a>) -> Result<Vec<CallLabel>, AllocError> {
        let mut labels = Vec::new();
        match fault {
            CallFault::PositionalAfterNamed {
                index,
                named_arguments,
            } => {
                let text = "positional arguments must be before named arguments";
                push_primary(&mut labels, Spot::Argument(*index), text)?;
                push_named(&mut labels, named_arguments)?;
            }
            CallFault::RepeatedName { index, first_index } => {
                push_secondary(&mut labels, Spot::Name(*first_index), "previously here")?;
                push_primary(&mut labels, Spot::Name(*index), "duplicate argument")?;
            }
            CallFault::Text(fault) => push_text(&mut labels, fault)?,
            CallFault::MissingName { reference, .. } => {
                push_plain(&mut labels, named_spot(&self.pieces, *reference))?;
            }
            CallFault::UnknownTrait { piece, .. } => {
                push_plain(&mut labels, type_spot(&self.pieces, *piece))?;
            }
            CallFault::MissingArguments(references) => {
                if !have_numbers(&self.pieces) {
                    return few_labels(self);
                }
                push_missing(&mut labels, &self.pieces, references)?;
            }
            CallFault::UnusedArguments(unused_indices) => {
                push_unused_and_literal(&mut labels, self.arguments, unused_indices)?;
            }
            CallFault::RedundantArguments(redundant_indices) => {
                push_redundant(&mut labels, self.arguments, redundant_indices)?;
            }
            CallFault::NameUsedByIndex { reference, index } => {
                push_by_index(&mut labels, self, *reference, *index)?;
            }
        }
        Ok(labels)
    }
}
