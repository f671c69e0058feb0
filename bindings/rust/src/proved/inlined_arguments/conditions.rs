//! The conditions that can be seen without reading the format string.

// Extracted from crates/inlined_arguments/src/conditions.rt by tools/extract: not to be edited.
// That source has the contracts, and is proved. That this text means the same is only tested.

use crate::proved::inlined_arguments::call::{Argument, Call, Obstacle};
use crate::proved::inlined_arguments::variables::{has_comment, is_variable, split_first};

/// Returns whether one of arguments is a variable.
#[inline]
fn has_variable(arguments: &[Argument<'_>]) -> bool {
    for argument in arguments {
        if is_variable(argument) {
            return true;
        }
    }
    false
}

/// Returns whether one of arguments is no variable.
#[inline]
fn has_other(arguments: &[Argument<'_>]) -> bool {
    for argument in arguments {
        if !is_variable(argument) {
            return true;
        }
    }
    false
}

/// Returns whether a comment would go with one of arguments.
fn have_comment(arguments: &[Argument<'_>]) -> bool {
    for argument in arguments {
        if is_variable(argument) && has_comment(argument) {
            return true;
        }
    }
    false
}

/// Returns the reason in its list of arguments why a call is left, or `None` if there is none.
#[inline(never)]
fn list_condition(call: &Call<'_>, allows_mixed: bool) -> Option<Obstacle> {
    if !call.is_counted {
        return Some(Obstacle::Uncounted);
    }
    if !has_variable(call.arguments) {
        return Some(Obstacle::NoVariable);
    }
    if !allows_mixed && has_other(call.arguments) {
        return Some(Obstacle::Mixed);
    }
    if have_comment(call.arguments) {
        return Some(Obstacle::Comment);
    }
    None
}

/// Returns whether a text is `{}`.
#[inline(never)]
fn is_bare(text: &str) -> bool {
    let Some(('{', rest)) = split_first(text) else {
        return false;
    };
    match split_first(rest) {
        Some(('}', tail)) => split_first(tail).is_none(),
        _ => false,
    }
}

/// Returns the reason in its macro and its string why a call is left, or `None` if there is none.
#[inline(never)]
fn string_condition(call: &Call<'_>) -> Option<Obstacle> {
    if !call.string.captures_variables {
        return Some(Obstacle::CapturesNone);
    }
    if !call.is_format_alone && !has_other(call.arguments) {
        return Some(Obstacle::Alone);
    }
    if call.has_const_form && is_bare(call.string.text) {
        return Some(Obstacle::ConstForm);
    }
    None
}

/// Returns the reason why a call is left that can be seen without reading its string, or `None` if
/// there is none.
pub(crate) fn condition(call: &Call<'_>, allows_mixed: bool) -> Option<Obstacle> {
    match list_condition(call, allows_mixed) {
        Some(reason) => Some(reason),
        None => string_condition(call),
    }
}
