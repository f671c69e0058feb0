//! Inlining, and the check of its result.

// Extracted from crates/inlined_arguments/src/inlining.rt by tools/extract: not to be edited.
// That source has the contracts, and is proved. That this text means the same is only tested.

use crate::proved::call_faults::{FormatArgument, FormatString};
use crate::proved::inlined_arguments::call::{Call, InlinedCall, Obstacle};
use crate::proved::inlined_arguments::conditions::condition;
use crate::proved::inlined_arguments::edited::apply_edits;
use crate::proved::inlined_arguments::edits::edits_of;
use crate::proved::inlined_arguments::meaning::{means_same, CallMeaning};
use crate::proved::inlined_arguments::reading::read;
use crate::proved::inlined_arguments::slots::{expression_slots, givens, slots, Slot};
use crate::proved::inlined_arguments::values::values_of;
use crate::proved::inlined_arguments::variables::variable_indices;
use crate::proved::piece_listing::literal::{literal_text, LiteralText};
use crate::shim::alloc::AllocError;
use crate::shim::prelude::*;

/// Adds the newline that a macro appends, if it does.
fn put_newline(text: &mut String, appends_newline: bool) -> Result<(), AllocError> {
    if appends_newline {
        text.push('\n');
        return Ok(());
    }
    Ok(())
}

/// Returns whether two styles of literals are the same.
fn is_same_style(left: Option<usize>, right: Option<usize>) -> bool {
    match (left, right) {
        (None, None) => true,
        (Some(left), Some(right)) => left == right,
        _ => false,
    }
}

/// Returns whether nothing is wrong with a call with this string and these slots, and it means what
/// the old one does. The given arguments are those of the slots.
#[inline(never)]
fn means_same_with<'c>(
    old: CallMeaning<'_, '_>,
    string: FormatString<'c>,
    slots: &[Slot<'c>],
    arguments: &'c [FormatArgument<'c>],
) -> Result<bool, AllocError> {
    let Some(pieces) = read(string, arguments)? else {
        return Ok(false);
    };
    let values = values_of(slots)?;
    let new = CallMeaning {
        pieces: &pieces,
        values: &values,
    };
    Ok(means_same(old, new))
}

/// Returns whether a call with this literal in place of its own, and without the arguments that are
/// variables, means what the old one does.
#[inline(never)]
fn keeps_meaning(
    call: Call<'_>,
    old: CallMeaning<'_, '_>,
    literal: &str,
) -> Result<bool, AllocError> {
    let Some(LiteralText { mut text, style }) = literal_text(literal)? else {
        return Ok(false);
    };
    if !is_same_style(style, call.string.style) {
        return Ok(false);
    }
    put_newline(&mut text, call.string.appended_newline)?;
    let string = FormatString {
        text: text.as_str(),
        style,
        snippet: Some(literal),
        appended_newline: call.string.appended_newline,
        captures_variables: call.string.captures_variables,
    };
    let slots = expression_slots(old.values.slots)?;
    let arguments = givens(&slots)?;
    means_same_with(old, string, &slots, arguments.as_slice())
}

/// Returns a call with its arguments that are variables in its format string, or why it is left as
/// it is, if it is not for a reason that is seen without reading its string. The slots and the
/// given arguments are those of the call.
#[inline(never)]
fn inline_with<'c>(
    call: Call<'c>,
    slots: &[Slot<'c>],
    arguments: &'c [FormatArgument<'c>],
) -> Result<Result<InlinedCall, Obstacle>, AllocError> {
    let Some(snippet) = call.string.snippet else {
        return Ok(Err(Obstacle::NoLiteral));
    };
    let Some(pieces) = read(call.string, arguments)? else {
        return Ok(Err(Obstacle::Faulty));
    };
    let values = values_of(slots)?;
    let old = CallMeaning {
        pieces: &pieces,
        values: &values,
    };
    let edits = edits_of(old)?;
    let Some(literal) = apply_edits(snippet, &edits)? else {
        return Ok(Err(Obstacle::OtherMeaning));
    };
    if !keeps_meaning(call, old, &literal)? {
        return Ok(Err(Obstacle::OtherMeaning));
    }
    let removed_indices = variable_indices(call.arguments)?;
    Ok(Ok(InlinedCall {
        edits,
        literal,
        removed_indices,
    }))
}

/// Returns a call with its arguments that are variables in its format string, or why it is left as
/// it is. `allows_mixed` is whether a call is changed that has other arguments too: these stay.
/// Returns `Err` if an allocation fails.
///
/// The number of hashes, the length of the text in bytes, and 2 must together fit into a `usize`.
#[inline(never)]
pub fn inline_arguments(
    call: Call<'_>,
    allows_mixed: bool,
) -> Result<Result<InlinedCall, Obstacle>, AllocError> {
    if let Some(reason) = condition(&call, allows_mixed) {
        return Ok(Err(reason));
    }
    let slots = slots(call.arguments)?;
    let arguments = givens(&slots)?;
    inline_with(call, &slots, arguments.as_slice())
}
