//! The lines of the calls of a parser. Each function of this module appends to a text, and returns
//! `Err` if an allocation fails; the text may then have a part of the lines, or none.

// Extracted from crates/listing_json/src/calls.rt by tools/extract: not to be edited.
// That source has the contracts, and is proved. That this text means the same is only tested.

use super::faults::put_fault;
use super::pieces::put_piece;
use crate::proved::rustc_parse_format::{Argument, Fault, PieceKind};
use crate::shim::alloc::AllocError;
use crate::shim::json::Writer;
use crate::shim::parser::Parser;
use crate::shim::prelude::*;
use core::mem;

/// Returns a writer that appends to a text, which is then empty until [`end_line`].
#[inline]
pub fn begin_line(out: &mut Vec<u8>) -> Writer {
    Writer::new(mem::replace(out, Vec::new()))
}

/// Ends the line of a writer, and moves it back into the text.
pub fn end_line(out: &mut Vec<u8>, writer: Writer) -> Result<(), AllocError> {
    *out = writer.into_inner();
    out.push(b'\n');
    Ok(())
}

/// Appends the line of a piece. A placeholder is in `argument`.
fn put_piece_line(
    out: &mut Vec<u8>,
    piece: &PieceKind<'_>,
    argument: &Argument<'_>,
) -> Result<(), AllocError> {
    let mut writer = begin_line(out);
    put_piece(&mut writer, piece, argument)?;
    end_line(out, writer)?;
    Ok(())
}

/// Appends the line of a piece, if there is one.
fn put_maybe_piece(
    out: &mut Vec<u8>,
    piece: &Option<PieceKind<'_>>,
    argument: &Argument<'_>,
) -> Result<(), AllocError> {
    match piece {
        Some(piece) => put_piece_line(out, piece, argument),
        None => Ok(()),
    }
}

/// Appends the line of a fault.
fn put_fault_line(out: &mut Vec<u8>, fault: &Fault<'_>) -> Result<(), AllocError> {
    let mut writer = begin_line(out);
    put_fault(&mut writer, fault)?;
    end_line(out, writer)?;
    Ok(())
}

/// Appends a line for each fault.
fn put_faults(out: &mut Vec<u8>, faults: &[Fault<'_>]) -> Result<(), AllocError> {
    for fault in faults {
        put_fault_line(out, fault)?;
    }
    Ok(())
}

/// Makes the next call of a parser, and appends the lines of its piece and of its faults, which it
/// also leaves in `faults`. Returns whether there is a piece.
#[inline(never)]
fn put_call<'a>(
    out: &mut Vec<u8>,
    parser: &mut Parser<'a>,
    argument: &mut Argument<'a>,
    faults: &mut Vec<Fault<'a>>,
) -> Result<bool, AllocError> {
    let piece = parser.next_with_faults(argument, faults)?;
    put_maybe_piece(out, &piece, argument)?;
    put_faults(out, faults.as_slice())?;
    Ok(piece.is_some())
}

/// Appends the lines of the calls of a parser up to the first that returns no piece. Returns
/// whether a fault is found.
#[inline(never)]
pub fn put_calls<'a>(out: &mut Vec<u8>, parser: &mut Parser<'a>) -> Result<bool, AllocError> {
    let mut argument = Argument::default();
    let mut faults = Vec::new();
    let mut has_faults = false;
    let mut has_piece = true;
    while has_piece {
        has_piece = put_call(out, parser, &mut argument, &mut faults)?;
        has_faults |= !faults.is_empty();
        faults.clear();
    }
    Ok(has_faults)
}
