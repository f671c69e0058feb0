//! The lookups for the placeholders of a template, in rustc's order.

// Extracted from crates/asm_faults/src/lookups.rt by tools/extract: not to be edited.
// That source has the contracts, and is proved. That this text means the same is only tested.

use crate::proved::asm_faults::faults::AsmSpot;
use crate::proved::rustc_parse_format::{Argument, Piece, Position};
use crate::shim::alloc::AllocError;
use crate::shim::prelude::*;
use core::ops::Range;

/// A lookup for a placeholder.
#[derive(Clone, Copy)]
pub(crate) enum Lookup<'a> {
    /// The operand of this index, for the placeholder there.
    Index(AsmSpot, usize),
    /// The operand with this name, which stands there.
    Name(AsmSpot, &'a str),
    /// A modifier of several characters, which stands there.
    LongModifier(AsmSpot),
}

/// The lookups for the placeholders so far.
pub(crate) struct Walk<'a> {
    /// The lookups.
    pub lookups: Vec<Lookup<'a>>,
    /// The index of the operand that the next placeholder without a position means.
    pub next: usize,
}

/// Returns a range of a template.
pub(crate) fn bytes_at(template: usize, span: &Range<usize>) -> AsmSpot {
    AsmSpot::Bytes {
        template,
        start: span.start,
        end: span.end,
    }
}

/// Returns a range of a template, or the whole template if there is none.
fn spot_of(template: usize, span: &Option<Range<usize>>) -> AsmSpot {
    match span {
        None => AsmSpot::Template(template),
        Some(span) => bytes_at(template, span),
    }
}

/// Returns the first of the places of placeholders, or the whole template if there is none.
fn first_spot(template: usize, places: &[Range<usize>]) -> AsmSpot {
    match places.first() {
        None => AsmSpot::Template(template),
        Some(place) => bytes_at(template, place),
    }
}

/// Returns the places after the first one.
fn others(places: &[Range<usize>]) -> &[Range<usize>] {
    match places.split_first() {
        None => places,
        Some((_, others)) => others,
    }
}

/// Returns whether a position is that of a placeholder without one.
#[inline]
fn is_next(position: &Position<'_>) -> bool {
    matches!(position, Position::ArgumentImplicitlyIs(_))
}

/// Returns the lookup of the position of a placeholder at a place, where one without a position
/// means the operand of the index `next`.
#[inline(never)]
fn position_lookup<'a>(
    template: usize,
    next: usize,
    spot: AsmSpot,
    argument: &Argument<'a>,
) -> Lookup<'a> {
    match argument.position {
        Position::ArgumentImplicitlyIs(_) => Lookup::Index(spot, next),
        Position::ArgumentIs(index) => Lookup::Index(spot, index),
        Position::ArgumentNamed(name) => {
            Lookup::Name(bytes_at(template, &argument.position_span), name)
        }
    }
}

/// Returns the number of characters of a text.
#[inline]
fn length_of(text: &str) -> usize {
    text.chars().count()
}

/// Returns whether a modifier has several characters.
#[inline]
fn is_long(ty: &str) -> bool {
    length_of(ty) > 1
}

/// Adds the lookup for the modifier of a placeholder.
fn push_modifier<'a>(
    lookups: &mut Vec<Lookup<'a>>,
    template: usize,
    argument: &Argument<'a>,
) -> Result<(), AllocError> {
    if is_long(argument.format.ty) {
        lookups.push(Lookup::LongModifier(spot_of(
            template,
            &argument.format.ty_span,
        )));
    }
    Ok(())
}

/// Adds the lookups for a placeholder at a place.
#[inline(never)]
fn push_argument<'a>(
    walk: &mut Walk<'a>,
    template: usize,
    spot: AsmSpot,
    argument: &Argument<'a>,
) -> Result<(), AllocError> {
    let lookup = position_lookup(template, walk.next, spot, argument);
    walk.lookups.push(lookup);
    if is_next(&argument.position) {
        walk.next += 1;
    }
    push_modifier(&mut walk.lookups, template, argument)?;
    Ok(())
}

/// Adds the lookups for a piece, where `places` are those of its placeholder and of the later
/// ones.
#[inline(never)]
fn push_piece<'a>(
    walk: &mut Walk<'a>,
    template: usize,
    places: &[Range<usize>],
    piece: &Piece<'a>,
) -> Result<(), AllocError> {
    match piece {
        Piece::Lit(_) => Ok(()),
        Piece::NextArgument(argument) => {
            push_argument(walk, template, first_spot(template, places), argument)
        }
    }
}

/// Returns the places after that of a piece, if it is a placeholder.
fn places_after<'p>(places: &'p [Range<usize>], piece: &Piece<'_>) -> &'p [Range<usize>] {
    match piece {
        Piece::Lit(_) => places,
        Piece::NextArgument(_) => others(places),
    }
}

/// Adds the lookups for the pieces of a template, whose placeholders have these places, in their
/// order.
#[inline(never)]
pub(crate) fn push_pieces<'a>(
    walk: &mut Walk<'a>,
    template: usize,
    pieces: &[Piece<'a>],
    places: &[Range<usize>],
) -> Result<(), AllocError> {
    let mut places = places;
    for piece in pieces {
        let rest_places = places_after(places, piece);
        push_piece(walk, template, places, piece)?;
        places = rest_places;
    }
    Ok(())
}
