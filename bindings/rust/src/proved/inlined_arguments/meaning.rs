//! The comparison of the meanings of two calls.

// Extracted from crates/inlined_arguments/src/meaning.rt by tools/extract: not to be edited.
// That source has the contracts, and is proved. That this text means the same is only tested.

use crate::proved::inlined_arguments::slots::Value;
use crate::proved::inlined_arguments::values::{amount_of, position_value, Amount, Values};
use crate::proved::rustc_parse_format::laws::{
    alignments_are_equal, debug_hexes_are_equal, signs_are_equal,
};
use crate::proved::rustc_parse_format::{Argument, DebugHex, FormatSpec, Piece, Sign};

/// Returns whether two texts are the same.
#[inline]
pub(crate) fn is_same_text(left: &str, right: &str) -> bool {
    left == right
}

/// Returns whether two values are the same.
#[inline(never)]
fn is_same_value(left: Value<'_>, right: Value<'_>) -> bool {
    match (left, right) {
        (Value::Variable(left), Value::Variable(right)) => is_same_text(left, right),
        (Value::Expression(left), Value::Expression(right)) => left == right,
        _ => false,
    }
}

/// Returns whether two values are the same, or neither is there.
#[inline(never)]
fn are_same_values(left: Option<Value<'_>>, right: Option<Value<'_>>) -> bool {
    match (left, right) {
        (Some(left), Some(right)) => is_same_value(left, right),
        (None, None) => true,
        _ => false,
    }
}

/// Returns whether two widths or precisions are the same.
#[inline(never)]
fn are_same_amounts(left: Amount<'_>, right: Amount<'_>) -> bool {
    match (left, right) {
        (Amount::Number(left), Amount::Number(right)) => left == right,
        (Amount::ValueOf(left), Amount::ValueOf(right)) => are_same_values(left, right),
        (Amount::Absent, Amount::Absent) => true,
        _ => false,
    }
}

/// Returns whether two fill characters are the same.
fn are_same_fills(left: Option<char>, right: Option<char>) -> bool {
    match (left, right) {
        (None, None) => true,
        (Some(left), Some(right)) => left == right,
        _ => false,
    }
}

/// Returns whether two signs are the same.
#[inline(never)]
fn are_same_signs(left: Option<Sign>, right: Option<Sign>) -> bool {
    match (left, right) {
        (None, None) => true,
        (Some(left), Some(right)) => signs_are_equal(&left, &right),
        _ => false,
    }
}

/// Returns whether two flags of the type `?` are the same.
#[inline(never)]
fn are_same_hexes(left: Option<DebugHex>, right: Option<DebugHex>) -> bool {
    match (left, right) {
        (None, None) => true,
        (Some(left), Some(right)) => debug_hexes_are_equal(&left, &right),
        _ => false,
    }
}

/// Returns whether two specifications are the same but for their width, their precision and their
/// places.
#[inline(never)]
fn are_same_flags(left: &FormatSpec<'_>, right: &FormatSpec<'_>) -> bool {
    are_same_fills(left.fill, right.fill)
        && alignments_are_equal(&left.align, &right.align)
        && are_same_signs(left.sign, right.sign)
        && left.alternate == right.alternate
        && left.zero_pad == right.zero_pad
        && are_same_hexes(left.debug_hex, right.debug_hex)
        && is_same_text(left.ty, right.ty)
}

/// A format string and the values that it refers to.
#[derive(Clone, Copy)]
pub(crate) struct CallMeaning<'s, 'a> {
    /// Its pieces.
    pub pieces: &'s [Piece<'a>],
    /// The values of its arguments.
    pub values: &'s Values<'s, 'a>,
}

/// Returns whether two placeholders mean the same.
#[inline(never)]
fn are_same_uses<'a, 'b>(
    left_values: &Values<'_, 'a>,
    left: &Argument<'a>,
    right_values: &Values<'_, 'b>,
    right: &Argument<'b>,
) -> bool {
    are_same_values(
        position_value(left_values, &left.position),
        position_value(right_values, &right.position),
    ) && are_same_amounts(
        amount_of(left_values, &left.format.width),
        amount_of(right_values, &right.format.width),
    ) && are_same_amounts(
        amount_of(left_values, &left.format.precision),
        amount_of(right_values, &right.format.precision),
    ) && are_same_flags(&left.format, &right.format)
}

/// Returns whether two pieces mean the same.
#[inline(never)]
fn are_same_parts<'a, 'b>(
    left_values: &Values<'_, 'a>,
    left: &Piece<'a>,
    right_values: &Values<'_, 'b>,
    right: &Piece<'b>,
) -> bool {
    match (left, right) {
        (Piece::Lit(left), Piece::Lit(right)) => is_same_text(left, right),
        (Piece::NextArgument(left), Piece::NextArgument(right)) => {
            are_same_uses(left_values, left, right_values, right)
        }
        _ => false,
    }
}

/// Returns whether two calls mean the same.
#[inline(never)]
pub(crate) fn means_same<'a, 'b>(left: CallMeaning<'_, 'a>, right: CallMeaning<'_, 'b>) -> bool {
    if left.pieces.len() != right.pieces.len() {
        return false;
    }
    for (index, piece) in left.pieces.iter().enumerate() {
        match right.pieces.get(index) {
            Some(other) => {
                if !are_same_parts(left.values, piece, right.values, other) {
                    return false;
                }
            }
            None => return false,
        }
    }
    true
}
