//! The arguments that pieces use.

// Extracted from crates/placeholder_check/src/uses.rt by tools/extract: not to be edited.
// That source has the contracts, and is proved. That this text means the same is only tested.

use crate::proved::placeholder_check::indices::{insert_index, no_indices, Indices};
use crate::proved::placeholder_check::names::{insert_name, no_names, Names};
use crate::proved::rustc_parse_format::{Argument, Count, Piece, Position};
use crate::shim::alloc::AllocError;

/// The arguments that placeholders use, each index and each name once.
pub struct Uses<'a> {
    /// The indices that are used.
    pub(crate) indices: Indices,
    /// The names that are used.
    pub(crate) names: Names<'a>,
}

impl<'a> Uses<'a> {
    /// Returns an empty collection. Does not allocate.
    #[inline]
    pub(crate) fn new() -> Uses<'a> {
        Uses {
            indices: no_indices(),
            names: no_names(),
        }
    }

    /// Adds the arguments that a placeholder uses: by its position, its width and its precision, in
    /// this order.
    #[inline]
    pub(crate) fn add(&mut self, argument: &Argument<'a>) -> Result<(), AllocError> {
        add_argument(self, argument)?;
        Ok(())
    }
}

/// Adds a use of an index.
#[inline]
fn add_index(uses: &mut Uses<'_>, index: usize) -> Result<(), AllocError> {
    insert_index(&mut uses.indices, index)?;
    Ok(())
}

/// Adds a use of a name.
#[inline]
fn add_name<'a>(uses: &mut Uses<'a>, name: &'a str) -> Result<(), AllocError> {
    insert_name(&mut uses.names, name)?;
    Ok(())
}

/// Adds the argument that a position uses.
#[inline(never)]
fn add_position<'a>(uses: &mut Uses<'a>, position: &Position<'a>) -> Result<(), AllocError> {
    match position {
        Position::ArgumentImplicitlyIs(n) | Position::ArgumentIs(n) => add_index(uses, *n),
        Position::ArgumentNamed(name) => add_name(uses, name),
    }
}

/// Adds the argument that a width or a precision uses, if it uses one.
#[inline(never)]
fn add_count<'a>(uses: &mut Uses<'a>, count: &Count<'a>) -> Result<(), AllocError> {
    match count {
        Count::CountIsParam(n) | Count::CountIsStar(n) => add_index(uses, *n),
        Count::CountIsName(name, _) => add_name(uses, name),
        Count::CountIs(_) | Count::CountImplied => Ok(()),
    }
}

/// Adds the arguments that a placeholder uses: by its position, its width and its precision, in
/// this order.
#[inline(never)]
fn add_argument<'a>(uses: &mut Uses<'a>, argument: &Argument<'a>) -> Result<(), AllocError> {
    add_position(uses, &argument.position)?;
    add_count(uses, &argument.format.width)?;
    add_count(uses, &argument.format.precision)?;
    Ok(())
}

/// Adds the arguments that a piece uses.
fn add_piece<'a>(uses: &mut Uses<'a>, piece: &Piece<'a>) -> Result<(), AllocError> {
    match piece {
        Piece::Lit(_) => Ok(()),
        Piece::NextArgument(argument) => add_argument(uses, argument),
    }
}

/// Returns the arguments that pieces use.
pub fn uses_of<'a>(pieces: &[Piece<'a>]) -> Result<Uses<'a>, AllocError> {
    let mut uses = Uses::new();
    for piece in pieces {
        add_piece(&mut uses, piece)?;
    }
    Ok(uses)
}
