//! The labels of missing arguments. A function whose name begins with `push_` adds to the end of
//! `labels`.

// Extracted from crates/call_faults/src/missing_labels.rt by tools/extract: not to be edited.
// That source has the contracts, and is proved. That this text means the same is only tested.

use crate::proved::call_faults::checker::CallReport;
use crate::proved::call_faults::faults::InvalidReference;
use crate::proved::call_faults::spots::{
    first_spot, push_plain, push_secondary, reference_spot, rest_after, spot_of,
};
use crate::proved::call_faults::titles::put_number;
use crate::proved::rustc_parse_format::{Count, Piece, Position};
use crate::proved::text_faults::{CallLabel, Spot};
use crate::shim::alloc::AllocError;
use crate::shim::prelude::*;
use core::ops::Range;

/// Adds the labels of references by an index that is too large.
#[inline(never)]
pub(crate) fn push_missing(
    labels: &mut Vec<CallLabel>,
    pieces: &[Piece<'_>],
    references: &[InvalidReference],
) -> Result<(), AllocError> {
    let mut rest = references;
    while let Some((first, others)) = rest.split_first() {
        push_plain(labels, reference_spot(pieces, first.reference))?;
        rest = others;
    }
    Ok(())
}

/// Returns the index of the argument that a precision takes by `*`, or `None` if it takes none.
#[inline(never)]
pub(crate) fn star_of(count: &Count<'_>) -> Option<usize> {
    match count {
        Count::CountIsStar(index) => Some(*index),
        Count::CountIs(_)
        | Count::CountIsName(..)
        | Count::CountIsParam(_)
        | Count::CountImplied => None,
    }
}

/// Returns whether a position is the next argument.
#[inline]
fn is_next(position: &Position<'_>) -> bool {
    matches!(position, Position::ArgumentImplicitlyIs(_))
}

/// Adds the label of a placeholder that takes the next argument, if the piece is one.
#[inline(never)]
fn push_next(
    labels: &mut Vec<CallLabel>,
    piece: &Piece<'_>,
    places: &[Range<usize>],
) -> Result<(), AllocError> {
    let Piece::NextArgument(argument) = piece else {
        return Ok(());
    };
    if is_next(&argument.position) {
        push_plain(labels, first_spot(places))?;
    }
    Ok(())
}

/// Adds the labels of those of pieces that take the next argument.
fn push_nexts(
    labels: &mut Vec<CallLabel>,
    pieces: &[Piece<'_>],
    places: &[Range<usize>],
) -> Result<(), AllocError> {
    let mut rest = places;
    for piece in pieces {
        push_next(labels, piece, rest)?;
        rest = rest_after(piece, rest);
    }
    Ok(())
}

/// Adds labels without a text of the values of arguments.
#[inline(never)]
fn push_values(labels: &mut Vec<CallLabel>, indices: &[usize]) -> Result<(), AllocError> {
    let mut rest = indices;
    while let Some((index, others)) = rest.split_first() {
        push_secondary(labels, Spot::Value(*index), "")?;
        rest = others;
    }
    Ok(())
}

/// Adds how many arguments are expected.
#[inline(never)]
fn put_expected(out: &mut String, count: usize) -> Result<(), AllocError> {
    if count == 1 {
        out.push_str("is 1 argument");
        return Ok(());
    }
    out.push_str("are ");
    put_number(out, count)?;
    out.push_str(" arguments");
    Ok(())
}

/// Adds the text of a precision that takes the argument `index` by `*`, where the
/// placeholders take `total` in all.
#[inline(never)]
fn put_star(out: &mut String, index: usize, total: usize) -> Result<(), AllocError> {
    out.push_str("this precision flag adds an extra required argument at position ");
    put_number(out, index)?;
    out.push_str(", which is why there ");
    put_expected(out, total)?;
    out.push_str(" expected");
    Ok(())
}

/// Adds the label of a precision that takes an argument by `*`, if the piece has one.
#[inline(never)]
fn push_star(
    labels: &mut Vec<CallLabel>,
    total: usize,
    piece: &Piece<'_>,
) -> Result<(), AllocError> {
    let Piece::NextArgument(argument) = piece else {
        return Ok(());
    };
    let Some(index) = star_of(&argument.format.precision) else {
        return Ok(());
    };
    let mut text = String::new();
    put_star(&mut text, index, total)?;
    labels.push(CallLabel {
        spot: spot_of(&argument.format.precision_span),
        is_primary: !is_next(&argument.position),
        text,
    });
    Ok(())
}

/// Adds the labels of the precisions of pieces that take arguments by `*`.
fn push_stars(
    labels: &mut Vec<CallLabel>,
    total: usize,
    pieces: &[Piece<'_>],
) -> Result<(), AllocError> {
    for piece in pieces {
        push_star(labels, total, piece)?;
    }
    Ok(())
}

/// Returns the labels of too few arguments, where none is referred to by a number that is written.
#[inline(never)]
pub(crate) fn few_labels(call: &CallReport<'_>) -> Result<Vec<CallLabel>, AllocError> {
    let mut labels = Vec::new();
    push_values(&mut labels, &call.indices)?;
    push_stars(&mut labels, call.parser.curarg(), &call.pieces)?;
    push_nexts(&mut labels, &call.pieces, call.parser.arg_places())?;
    Ok(labels)
}
