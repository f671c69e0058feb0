//! The suggestions of rustc for faults, in its words.

// Extracted from crates/call_faults/src/helps.rt by tools/extract: not to be edited.
// That source has the contracts, and is proved. That this text means the same is only tested.

use crate::proved::call_faults::arguments::FormatArgument;
use crate::proved::call_faults::checker::CallReport;
use crate::proved::call_faults::directives::hold_directives;
use crate::proved::call_faults::faults::{CallFault, Part, Reference};
use crate::proved::call_faults::labels::{have_names, is_last};
use crate::proved::call_faults::notes::{are_missing, put_specifiers};
use crate::proved::call_faults::spots::{bytes_at, index_spot, CallEdit, CallHelp};
use crate::proved::call_faults::titles::{name_of, put_number};
use crate::proved::rustc_parse_format::{Fault, Suggestion};
use crate::proved::text_faults::Spot;
use crate::shim::alloc::AllocError;
use crate::shim::prelude::*;
use core::ops::Range;

/// Returns an edit that copies no source.
#[inline]
fn plain_edit(spot: Spot, text: String) -> CallEdit {
    CallEdit {
        spot,
        text,
        copied_spot: None,
        rest: "",
    }
}

/// Returns a help with one edit.
fn single(text: String, spot: Spot, new: String) -> Result<CallHelp, AllocError> {
    let mut edits = Vec::new();
    edits.push(plain_edit(spot, new));
    Ok(CallHelp { text, edits })
}

/// Adds this many placeholders.
fn put_placeholders(out: &mut String, count: usize) -> Result<(), AllocError> {
    let mut countdown = count;
    while countdown > 0 {
        out.push_str("{}");
        countdown -= 1;
    }
    Ok(())
}

/// Returns the help for so many unused arguments, or `None` if there is none.
#[inline(never)]
fn unused_help(call: &CallReport<'_>, count: usize) -> Result<Option<CallHelp>, AllocError> {
    if are_missing(&call.faults) || count != call.indices.len() || hold_directives(&call.pieces) {
        return Ok(None);
    }
    let message = "format specifiers use curly braces, consider adding ";
    let mut text = String::from(message);
    put_specifiers(&mut text, count)?;
    let mut new = String::new();
    put_placeholders(&mut new, count)?;
    let help = single(text, Spot::LiteralEnd, new)?;
    Ok(Some(help))
}

/// Returns where the text is that is removed with an argument.
fn removed_spot(arguments: &[FormatArgument<'_>], index: usize) -> Spot {
    if is_last(arguments, index) {
        Spot::Value(index)
    } else {
        Spot::ValueUpToNext(index)
    }
}

/// Adds the edits that remove arguments.
#[inline(never)]
fn push_removals(
    edits: &mut Vec<CallEdit>,
    arguments: &[FormatArgument<'_>],
    indices: &[usize],
) -> Result<(), AllocError> {
    let mut rest = indices;
    while let Some((index, others)) = rest.split_first() {
        let text = String::new();
        let spot = removed_spot(arguments, *index);
        edits.push(plain_edit(spot, text));
        rest = others;
    }
    Ok(())
}

/// Returns the help for redundant arguments, or `None` if there is none.
#[inline(never)]
fn redundant_help(
    arguments: &[FormatArgument<'_>],
    redundant_indices: &[usize],
) -> Result<Option<CallHelp>, AllocError> {
    if redundant_indices.len() <= 1 || have_names(arguments) {
        return Ok(None);
    }
    let mut edits = Vec::new();
    push_removals(&mut edits, arguments, redundant_indices)?;
    let text = String::from("this can be removed");
    Ok(Some(CallHelp { text, edits }))
}

/// Returns the text after a name in a part of a placeholder.
fn after_name(part: Part) -> &'static str {
    match part {
        Part::Position => "",
        Part::Precision | Part::Width => "$",
    }
}

/// Returns the name of an argument as a part of a placeholder has it.
fn name_in(part: Part, name: &str) -> Result<String, AllocError> {
    let mut text = String::from(name);
    text.push_str(after_name(part));
    Ok(text)
}

/// Returns the help for a use by index of an argument with a name.
#[inline(never)]
fn by_index_help(
    call: &CallReport<'_>,
    reference: Reference,
    index: usize,
) -> Result<CallHelp, AllocError> {
    let message = "use the named argument by name to avoid ambiguity";
    let text = String::from(message);
    let new = name_in(reference.part, name_of(call.arguments, index))?;
    let spot = index_spot(&call.pieces, reference);
    single(text, spot, new)
}

/// Returns the help that replaces a text.
#[inline(never)]
fn replacement_help(spot: Spot, new: &str) -> Result<CallHelp, AllocError> {
    let mut text = String::from("did you mean `");
    text.push_str(new);
    text.push_str("`?");
    let new = String::from(new);
    single(text, spot, new)
}

/// Returns how many of arguments stand before the first one with a name.
fn unnamed_count(arguments: &[FormatArgument<'_>]) -> usize {
    for (index, argument) in arguments.iter().enumerate() {
        if argument.name.is_some() {
            return index;
        }
    }
    arguments.len()
}

/// Returns where an argument without a name is added, if there are so many already.
fn added_spot(count: usize) -> Spot {
    if count == 0 {
        Spot::AfterLiteral
    } else {
        Spot::ValueEnd(count - 1)
    }
}

/// Returns the help for an expression at this place of the string.
#[inline(never)]
fn positional_help(
    arguments: &[FormatArgument<'_>],
    span: &Range<usize>,
) -> Result<CallHelp, AllocError> {
    let count = unnamed_count(arguments);
    let spot = bytes_at(span);
    let mut index = String::new();
    put_number(&mut index, count)?;
    let comma = String::from(", ");
    let mut edits = Vec::new();
    edits.push(plain_edit(spot, index));
    edits.push(CallEdit {
        spot: added_spot(count),
        text: comma,
        copied_spot: Some(spot),
        rest: "",
    });
    let message = "consider using a positional formatting argument instead";
    let text = String::from(message);
    Ok(CallHelp { text, edits })
}

/// Returns the help for `=` after an argument, or `None` unless one argument counts.
#[inline(never)]
fn debug_help(indices: &[usize]) -> Result<Option<CallHelp>, AllocError> {
    let [index] = indices else {
        return Ok(None);
    };
    let text = String::from("use rust debug printing macro");
    let opening = String::from("dbg!(");
    let mut edits = Vec::new();
    edits.push(CallEdit {
        spot: Spot::Call,
        text: opening,
        copied_spot: Some(Spot::Value(*index)),
        rest: ")",
    });
    Ok(Some(CallHelp { text, edits }))
}

/// Returns the help for a fault of the string, or `None` if it has none that is no label.
#[inline(never)]
fn text_help(call: &CallReport<'_>, fault: &Fault<'_>) -> Result<Option<CallHelp>, AllocError> {
    let error = fault.error()?;
    match &error.suggestion {
        Suggestion::ReorderFormatParameter(span, text) => {
            let help = replacement_help(bytes_at(span), text)?;
            Ok(Some(help))
        }
        Suggestion::UsePositional => {
            let help = positional_help(call.arguments, &error.span)?;
            Ok(Some(help))
        }
        Suggestion::UseRustDebugPrintingMacro => debug_help(&call.indices),
        Suggestion::None | Suggestion::RemoveRawIdent(_) | Suggestion::AddMissingColon(_) => {
            Ok(None)
        }
    }
}

impl<'a> CallReport<'a> {
    /// Returns the suggestion of rustc for one of the faults, or `None` if there is none or it is
    /// in a label. The suggestions for the directives of other languages are left out.
    #[inline(never)]
    pub(crate) fn help(&self, fault: &CallFault<'a>) -> Result<Option<CallHelp>, AllocError> {
        match fault {
            CallFault::PositionalAfterNamed { .. }
            | CallFault::RepeatedName { .. }
            | CallFault::MissingName { .. }
            | CallFault::UnknownTrait { .. }
            | CallFault::MissingArguments(_) => Ok(None),
            CallFault::Text(fault) => text_help(self, fault),
            CallFault::UnusedArguments(unused_indices) => unused_help(self, unused_indices.len()),
            CallFault::RedundantArguments(redundant_indices) => {
                redundant_help(self.arguments, redundant_indices)
            }
            CallFault::NameUsedByIndex { reference, index } => {
                let help = by_index_help(self, *reference, *index)?;
                Ok(Some(help))
            }
        }
    }
}
