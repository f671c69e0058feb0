//! The edits that put variables into a literal.

// Extracted from crates/inlined_arguments/src/edits.rt by tools/extract: not to be edited.
// That source has the contracts, and is proved. That this text means the same is only tested.

use crate::proved::inlined_arguments::call::Edit;
use crate::proved::inlined_arguments::meaning::{is_same_text, CallMeaning};
use crate::proved::inlined_arguments::slots::Value;
use crate::proved::inlined_arguments::values::{amount_of, position_value, Amount, Values};
use crate::proved::rustc_parse_format::{Argument, Count, Piece, Position};
use crate::shim::alloc::AllocError;
use crate::shim::itoa::Buffer;
use crate::shim::prelude::*;
use core::ops::Range;

/// How a part of a placeholder refers to an argument.
#[derive(Clone, Copy)]
enum Reference<'a> {
    /// By a name that is written.
    WrittenName(&'a str),
    /// By an index that is written.
    WrittenIndex(usize),
    /// As to the next one, or not at all.
    Unwritten,
}

/// Returns how a position refers to an argument.
#[inline(never)]
fn position_reference<'a>(position: &Position<'a>) -> Reference<'a> {
    match position {
        Position::ArgumentNamed(name) => Reference::WrittenName(name),
        Position::ArgumentIs(n) => Reference::WrittenIndex(*n),
        Position::ArgumentImplicitlyIs(_) => Reference::Unwritten,
    }
}

/// Returns how a width or a precision refers to an argument.
#[inline(never)]
fn count_reference<'a>(count: &Count<'a>) -> Reference<'a> {
    match count {
        Count::CountIsName(name, _) => Reference::WrittenName(name),
        Count::CountIsParam(n) => Reference::WrittenIndex(*n),
        Count::CountIs(_) | Count::CountIsStar(_) | Count::CountImplied => Reference::Unwritten,
    }
}

/// Returns a name as a text of its own.
#[inline]
fn name_text(name: &str) -> Result<String, AllocError> {
    Ok(String::from(name))
}

/// Returns the new text of a reference to this value, or `None` if it stays as it is: a name that
/// is that of the variable already, an index that stays the same, or the next argument.
#[inline(never)]
fn new_text(reference: Reference<'_>, value: Value<'_>) -> Result<Option<String>, AllocError> {
    match (value, reference) {
        (Value::Variable(name), Reference::WrittenName(other)) => {
            if is_same_text(name, other) {
                return Ok(None);
            }
            Ok(Some(name_text(name)?))
        }
        (Value::Variable(name), _) => Ok(Some(name_text(name)?)),
        (Value::Expression(index), Reference::WrittenIndex(n)) => {
            if n == index {
                return Ok(None);
            }
            let mut digits = Buffer::new();
            Ok(Some(String::from(digits.format(index))))
        }
        _ => Ok(None),
    }
}

/// Adds the edit that puts a text into a place of the literal, if there is one.
fn push_edit(
    edits: &mut Vec<Edit>,
    span: &Range<usize>,
    text: Option<String>,
) -> Result<(), AllocError> {
    if let Some(text) = text {
        edits.push(Edit {
            span: span.start..span.end,
            text,
        });
    }
    Ok(())
}

/// Adds the edit of the position of a placeholder, if it does not stay as it is.
#[inline(never)]
fn push_position<'a>(
    edits: &mut Vec<Edit>,
    values: &Values<'_, 'a>,
    argument: &Argument<'a>,
) -> Result<(), AllocError> {
    let text = match position_value(values, &argument.position) {
        Some(value) => new_text(position_reference(&argument.position), value)?,
        None => None,
    };
    push_edit(edits, &argument.position_span, text)?;
    Ok(())
}

/// Returns the text of a width or a precision that is an argument, or `None` if it stays as it is.
/// `dot` is what the text begins with: the dot of a precision.
#[inline(never)]
fn count_text(
    reference: Reference<'_>,
    amount: Amount<'_>,
    dot: &str,
) -> Result<Option<String>, AllocError> {
    let Amount::ValueOf(Some(value)) = amount else {
        return Ok(None);
    };
    match new_text(reference, value)? {
        Some(text) => Ok(Some(::alloc::format!("{dot}{text}$"))),
        None => Ok(None),
    }
}

/// Adds the edit of a width or a precision at a place of the literal, if it does not stay as it is.
/// `dot` is what its text begins with.
#[inline(never)]
fn push_count<'a>(
    edits: &mut Vec<Edit>,
    values: &Values<'_, 'a>,
    count: &Count<'a>,
    span: &Option<Range<usize>>,
    dot: &str,
) -> Result<(), AllocError> {
    if let Some(span) = span {
        let text = count_text(count_reference(count), amount_of(values, count), dot)?;
        push_edit(edits, span, text)?;
    }
    Ok(())
}

/// Adds the edits of a piece.
#[inline(never)]
fn push_piece<'a>(
    edits: &mut Vec<Edit>,
    values: &Values<'_, 'a>,
    piece: &Piece<'a>,
) -> Result<(), AllocError> {
    let Piece::NextArgument(argument) = piece else {
        return Ok(());
    };
    let format = &argument.format;
    push_position(edits, values, argument)?;
    push_count(edits, values, &format.width, &format.width_span, "")?;
    push_count(
        edits,
        values,
        &format.precision,
        &format.precision_span,
        ".",
    )?;
    Ok(())
}

/// Returns the edits of a literal whose text has these pieces: they put variables in the place of
/// references to arguments that are these, and make the others those to the arguments that stay.
pub(crate) fn edits_of(call: CallMeaning<'_, '_>) -> Result<Vec<Edit>, AllocError> {
    let mut edits = Vec::new();
    for piece in call.pieces {
        push_piece(&mut edits, call.values, piece)?;
    }
    Ok(edits)
}
