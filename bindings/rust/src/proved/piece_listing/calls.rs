//! The lines of the pieces of a parser, each written as its call returns it: all placeholders are
//! read into one argument, so that a long text needs no memory for each.

// Extracted from crates/piece_listing/src/calls.rt by tools/extract: not to be edited.
// That source has the contracts, and is proved. That this text means the same is only tested.

use super::listing::{put_argument, put_literal};
use crate::proved::placeholder_check::Uses;
use crate::proved::rustc_parse_format::{Argument, FormatSpec, NextPiece, PieceKind, Position};
use crate::shim::alloc::AllocError;
use crate::shim::parser::Parser;
use crate::shim::prelude::*;

/// Makes the next call of a parser, and returns its piece. A placeholder is in `argument`.
fn next_piece<'a>(
    parser: &mut Parser<'a>,
    argument: &mut Argument<'a>,
) -> Result<Option<PieceKind<'a>>, AllocError> {
    let NextPiece {
        piece,
        front_errors: _,
    } = parser.next_into(argument)?;
    Ok(piece)
}

/// Appends the line of a piece.
fn put_piece_kind(
    out: &mut String,
    piece: &PieceKind<'_>,
    argument: &Argument<'_>,
) -> Result<(), AllocError> {
    match piece {
        PieceKind::Lit(text) => put_literal(out, text)?,
        PieceKind::NextArgument => put_argument(out, argument)?,
    }
    Ok(())
}

/// Adds the arguments that a piece uses, if they are to be compared with those that are given.
fn add_uses<'a>(
    uses: &mut Uses<'a>,
    compares_arguments: bool,
    piece: &PieceKind<'a>,
    argument: &Argument<'a>,
) -> Result<(), AllocError> {
    if compares_arguments && matches!(piece, PieceKind::NextArgument) {
        uses.add(argument)?;
    }
    Ok(())
}

/// Appends the lines of the pieces of a parser up to the first call that returns `None`, and adds
/// the arguments that they use to `all_uses` if `compares_arguments` is set.
#[inline(never)]
pub fn put_calls<'a>(
    out: &mut String,
    all_uses: &mut Uses<'a>,
    compares_arguments: bool,
    parser: &mut Parser<'a>,
) -> Result<(), AllocError> {
    let mut argument = Argument {
        position: Position::ArgumentImplicitlyIs(0),
        position_span: 0..0,
        format: FormatSpec::default(),
    };
    while let Some(piece) = next_piece(parser, &mut argument)? {
        put_piece_kind(out, &piece, &argument)?;
        add_uses(all_uses, compares_arguments, &piece, &argument)?;
    }
    Ok(())
}
