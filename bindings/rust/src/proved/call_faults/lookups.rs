//! The lookups for the placeholders of a format string, in rustc's order.

// Extracted from crates/call_faults/src/lookups.rt by tools/extract: not to be edited.
// That source has the contracts, and is proved. That this text means the same is only tested.

use crate::proved::call_faults::faults::{Part, Reference};
use crate::proved::rustc_parse_format::{Argument, Count, Piece, Position};
use crate::shim::alloc::AllocError;
use crate::shim::prelude::*;

/// The argument that a reference wants.
#[derive(Clone, Copy)]
pub(crate) enum ArgRef<'a> {
    /// The one of this index.
    Index(usize),
    /// The one with this name.
    Name(&'a str),
}

/// A lookup for a placeholder.
#[derive(Clone, Copy)]
pub(crate) enum Lookup<'a> {
    /// An argument.
    Refer(Reference, ArgRef<'a>),
    /// A trait that does not exist, for the placeholder of this index with this type.
    NoTrait(usize, &'a str),
}

/// Returns the argument that a position wants.
#[inline(never)]
fn arg_ref_of<'a>(position: &Position<'a>) -> ArgRef<'a> {
    match position {
        Position::ArgumentImplicitlyIs(n) | Position::ArgumentIs(n) => ArgRef::Index(*n),
        Position::ArgumentNamed(name) => ArgRef::Name(name),
    }
}

/// Adds the reference of a precision or of a width, if it is one.
#[inline(never)]
fn push_count<'a>(
    list: &mut Vec<Lookup<'a>>,
    reference: Reference,
    count: &Count<'a>,
) -> Result<(), AllocError> {
    match count {
        Count::CountIsParam(n) | Count::CountIsStar(n) => {
            list.push(Lookup::Refer(reference, ArgRef::Index(*n)));
        }
        Count::CountIsName(name, _) => {
            list.push(Lookup::Refer(reference, ArgRef::Name(name)));
        }
        Count::CountIs(_) | Count::CountImplied => {}
    }
    Ok(())
}

/// Returns whether a character is a type that names a trait.
fn names_trait(c: char) -> bool {
    matches!(c, '?' | 'o' | 'x' | 'X' | 'p' | 'b' | 'e' | 'E')
}

/// Returns whether the type of a format specification names a trait.
#[inline(never)]
fn is_known(ty: &str) -> bool {
    let mut characters = ty.chars();
    match characters.next() {
        None => true,
        Some(c) => names_trait(c) && characters.next().is_none(),
    }
}

/// Adds the lookups for a placeholder.
#[inline(never)]
fn push_argument<'a>(
    list: &mut Vec<Lookup<'a>>,
    piece: usize,
    argument: &Argument<'a>,
) -> Result<(), AllocError> {
    let part = Part::Position;
    list.push(Lookup::Refer(
        Reference { piece, part },
        arg_ref_of(&argument.position),
    ));
    let ty = argument.format.ty;
    if !is_known(ty) {
        list.push(Lookup::NoTrait(piece, ty));
    }
    let part = Part::Precision;
    push_count(list, Reference { piece, part }, &argument.format.precision)?;
    let part = Part::Width;
    push_count(list, Reference { piece, part }, &argument.format.width)?;
    Ok(())
}

/// Adds the lookups for a piece.
fn push_piece<'a>(
    list: &mut Vec<Lookup<'a>>,
    index: usize,
    piece: &Piece<'a>,
) -> Result<(), AllocError> {
    match piece {
        Piece::Lit(_) => Ok(()),
        Piece::NextArgument(argument) => push_argument(list, index, argument),
    }
}

/// Returns the lookups for pieces.
#[inline(never)]
pub(crate) fn lookups_of<'a>(pieces: &[Piece<'a>]) -> Result<Vec<Lookup<'a>>, AllocError> {
    let mut list = Vec::new();
    for (index, piece) in pieces.iter().enumerate() {
        push_piece(&mut list, index, piece)?;
    }
    Ok(list)
}
