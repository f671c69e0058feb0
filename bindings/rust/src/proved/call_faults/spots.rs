//! The notes and helps of a call, as plain data, and the places that messages show.

// Extracted from crates/call_faults/src/spots.rt by tools/extract: not to be edited.
// That source has the contracts, and is proved. That this text means the same is only tested.

use crate::proved::call_faults::faults::{Part, Reference};
use crate::proved::rustc_parse_format::{Argument, Count, Piece};
use crate::proved::text_faults::{CallLabel, Spot};
use crate::shim::alloc::AllocError;
use crate::shim::prelude::*;
use core::ops::Range;

/// A note of a fault.
#[derive(Debug, PartialEq)]
pub struct CallNote {
    /// Its text, in rustc's words, which may have several lines.
    pub text: String,
    /// The places that it shows. A note without any is a row under the labels, and one with some
    /// has a drawing of its own.
    pub spots: Vec<Spot>,
}

/// A text that a help puts in the place of another one.
#[derive(Debug, PartialEq)]
pub struct CallEdit {
    /// The place of the other text. The range is empty where text is only inserted.
    pub spot: Spot,
    /// The new text, or its start before the source that it copies. It is empty where text is only
    /// removed.
    pub text: String,
    /// The place whose source the new text copies, if it copies any.
    pub copied_spot: Option<Spot>,
    /// The end of the new text, after the copied source.
    pub rest: &'static str,
}

/// A help of a fault.
#[derive(Debug, PartialEq)]
pub struct CallHelp {
    /// The advice, in rustc's words.
    pub text: String,
    /// The edits that do it, in the order of the source.
    pub edits: Vec<CallEdit>,
}

/// Adds a label of a place that the fault is about.
pub(crate) fn push_primary(
    labels: &mut Vec<CallLabel>,
    spot: Spot,
    text: &str,
) -> Result<(), AllocError> {
    let text = String::from(text);
    labels.push(CallLabel {
        spot,
        is_primary: true,
        text,
    });
    Ok(())
}

/// Adds a label without a text of a place that the fault is about.
#[inline]
pub(crate) fn push_plain(labels: &mut Vec<CallLabel>, spot: Spot) -> Result<(), AllocError> {
    push_primary(labels, spot, "")?;
    Ok(())
}

/// Adds a label of another place.
pub(crate) fn push_secondary(
    labels: &mut Vec<CallLabel>,
    spot: Spot,
    text: &str,
) -> Result<(), AllocError> {
    let text = String::from(text);
    labels.push(CallLabel {
        spot,
        is_primary: false,
        text,
    });
    Ok(())
}

/// Returns a range of the literal.
#[inline]
pub(crate) fn bytes_at(span: &Range<usize>) -> Spot {
    Spot::Bytes {
        start: span.start,
        end: span.end,
    }
}

/// Returns a range of the literal, or the whole literal if there is none.
pub(crate) fn spot_of(span: &Option<Range<usize>>) -> Spot {
    match span {
        None => Spot::Literal,
        Some(span) => bytes_at(span),
    }
}

/// Returns the placeholder with an index among pieces, or `None` if that is text or after the end.
fn placeholder_at<'p, 'a>(pieces: &'p [Piece<'a>], index: usize) -> Option<&'p Argument<'a>> {
    match pieces.get(index) {
        Some(Piece::NextArgument(argument)) => Some(argument),
        Some(Piece::Lit(_)) | None => None,
    }
}

/// Returns where a part of a placeholder is.
#[inline(never)]
fn part_spot(argument: &Argument<'_>, part: Part) -> Spot {
    match part {
        Part::Position => bytes_at(&argument.position_span),
        Part::Precision => spot_of(&argument.format.precision_span),
        Part::Width => spot_of(&argument.format.width_span),
    }
}

/// Returns where a reference is.
pub(crate) fn reference_spot(pieces: &[Piece<'_>], reference: Reference) -> Spot {
    match placeholder_at(pieces, reference.piece) {
        None => Spot::Literal,
        Some(argument) => part_spot(argument, reference.part),
    }
}

/// Returns where the name of a width or a precision is.
#[inline(never)]
fn count_spot(count: &Count<'_>) -> Spot {
    match count {
        Count::CountIsName(_, span) => bytes_at(span),
        Count::CountIs(_)
        | Count::CountIsParam(_)
        | Count::CountIsStar(_)
        | Count::CountImplied => Spot::Literal,
    }
}

/// Returns where the name in a part of a placeholder is.
#[inline(never)]
fn name_spot(argument: &Argument<'_>, part: Part) -> Spot {
    match part {
        Part::Position => bytes_at(&argument.position_span),
        Part::Precision => count_spot(&argument.format.precision),
        Part::Width => count_spot(&argument.format.width),
    }
}

/// Returns where the name of a reference is.
pub(crate) fn named_spot(pieces: &[Piece<'_>], reference: Reference) -> Spot {
    match placeholder_at(pieces, reference.piece) {
        None => Spot::Literal,
        Some(argument) => name_spot(argument, reference.part),
    }
}

/// Returns where the type of the placeholder with an index is.
pub(crate) fn type_spot(pieces: &[Piece<'_>], index: usize) -> Spot {
    match placeholder_at(pieces, index) {
        None => Spot::Literal,
        Some(argument) => spot_of(&argument.format.ty_span),
    }
}

/// Returns the places of the placeholders after a piece, from those from that piece on.
#[inline(never)]
pub(crate) fn rest_after<'p>(piece: &Piece<'_>, places: &'p [Range<usize>]) -> &'p [Range<usize>] {
    match piece {
        Piece::Lit(_) => places,
        Piece::NextArgument(_) => match places {
            [] => places,
            [_, others @ ..] => others,
        },
    }
}

/// Returns the number of placeholders up to a piece, where so many stand before it.
fn count_with(count: usize, piece: &Piece<'_>) -> usize {
    match piece {
        Piece::Lit(_) => count,
        Piece::NextArgument(_) => count + 1,
    }
}

/// Returns of each of these pieces how many placeholders stand before it.
#[inline(never)]
pub(crate) fn counts_before(pieces: &[Piece<'_>]) -> Result<Vec<usize>, AllocError> {
    let mut counts = Vec::with_capacity(pieces.len());
    let mut count = 0;
    for piece in pieces {
        counts.push(count);
        count = count_with(count, piece);
    }
    Ok(counts)
}

/// Returns the first one of places, or the whole literal if there is none.
pub(crate) fn first_spot(places: &[Range<usize>]) -> Spot {
    match places.first() {
        None => Spot::Literal,
        Some(place) => bytes_at(place),
    }
}

/// Returns the place of the placeholder with an index among pieces, before each of which so many
/// stand, or the whole literal if it has none.
#[inline(never)]
fn place_spot(counts: &[usize], places: &[Range<usize>], index: usize) -> Spot {
    let Some(count) = counts.get(index) else {
        return Spot::Literal;
    };
    match places.get(*count) {
        None => Spot::Literal,
        Some(place) => bytes_at(place),
    }
}

/// Returns a range without its first byte, which is the dot of a precision.
#[inline(never)]
fn after_dot(span: &Option<Range<usize>>) -> Spot {
    match span {
        None => Spot::Literal,
        Some(span) => Spot::Bytes {
            start: span.start.saturating_add(1).min(span.end),
            end: span.end,
        },
    }
}

/// Returns where a use by index is shown: the whole placeholder, or the width or the precision
/// without its dot.
#[inline(never)]
pub(crate) fn use_spot(
    pieces: &[Piece<'_>],
    counts: &[usize],
    places: &[Range<usize>],
    reference: Reference,
) -> Spot {
    match placeholder_at(pieces, reference.piece) {
        None => Spot::Literal,
        Some(argument) => match reference.part {
            Part::Position => place_spot(counts, places, reference.piece),
            Part::Precision => after_dot(&argument.format.precision_span),
            Part::Width => spot_of(&argument.format.width_span),
        },
    }
}

/// Returns where a reference has the index of its argument: its position, or its width or its
/// precision without its dot.
#[inline(never)]
pub(crate) fn index_spot(pieces: &[Piece<'_>], reference: Reference) -> Spot {
    match placeholder_at(pieces, reference.piece) {
        None => Spot::Literal,
        Some(argument) => match reference.part {
            Part::Position => bytes_at(&argument.position_span),
            Part::Precision => after_dot(&argument.format.precision_span),
            Part::Width => spot_of(&argument.format.width_span),
        },
    }
}
