//! Pieces as JSON. Each function of this module appends to a writer.

// Extracted from crates/listing_json/src/pieces.rt by tools/extract: not to be edited.
// That source has the contracts, and is proved. That this text means the same is only tested.

use super::fields::{
    begin_kind, put_index, put_maybe_span, put_name, put_number, put_span_of, put_text,
};
use crate::proved::rustc_parse_format::{
    Alignment, Argument, Count, DebugHex, FormatSpec, PieceKind, Position, Sign,
};
use crate::shim::alloc::AllocError;
use crate::shim::json::Writer;
use crate::shim::prelude::*;
use core::ops::Range;

/// Appends a position.
#[inline(never)]
fn put_position(writer: &mut Writer, position: &Position<'_>) -> Result<(), AllocError> {
    match position {
        Position::ArgumentImplicitlyIs(n) => put_index(writer, "implicit", *n),
        Position::ArgumentIs(n) => put_index(writer, "index", *n),
        Position::ArgumentNamed(name) => put_name(writer, "name", name),
    }
}

/// Appends a count that is a number.
fn put_count_number(writer: &mut Writer, number: u16) -> Result<(), AllocError> {
    begin_kind(writer, "number")?;
    put_number(writer, "value", usize::from(number))?;
    writer.end_object()?;
    Ok(())
}

/// Appends a count that is the value of an argument with a name.
#[inline(never)]
fn put_count_name(writer: &mut Writer, name: &str, span: &Range<usize>) -> Result<(), AllocError> {
    begin_kind(writer, "name")?;
    writer.key("name")?;
    put_text(writer, name)?;
    put_span_of(writer, "span", span)?;
    writer.end_object()?;
    Ok(())
}

/// Appends a key and a width or a precision.
#[inline(never)]
fn put_count(writer: &mut Writer, name: &str, count: &Count<'_>) -> Result<(), AllocError> {
    writer.key(name)?;
    match count {
        Count::CountIs(number) => put_count_number(writer, *number)?,
        Count::CountIsName(name, span) => put_count_name(writer, name, span)?,
        Count::CountIsParam(n) => put_index(writer, "index", *n)?,
        Count::CountIsStar(n) => put_index(writer, "star", *n)?,
        Count::CountImplied => writer.null()?,
    }
    Ok(())
}

/// Appends a character as a string.
fn put_char(writer: &mut Writer, c: char) -> Result<(), AllocError> {
    let mut text = String::new();
    text.push(c);
    writer.string(text.as_str())?;
    Ok(())
}

/// Appends a fill character, or null if there is none.
fn put_fill(writer: &mut Writer, fill: Option<char>) -> Result<(), AllocError> {
    match fill {
        Some(c) => put_char(writer, c),
        None => writer.null(),
    }
}

/// Appends an alignment, or null if none is given.
#[inline(never)]
fn put_align(writer: &mut Writer, align: Alignment) -> Result<(), AllocError> {
    match align {
        Alignment::AlignLeft => writer.string("left"),
        Alignment::AlignRight => writer.string("right"),
        Alignment::AlignCenter => writer.string("center"),
        Alignment::AlignUnknown => writer.null(),
    }
}

/// Appends a sign flag, or null if there is none.
#[inline(never)]
fn put_sign(writer: &mut Writer, sign: Option<Sign>) -> Result<(), AllocError> {
    match sign {
        Some(Sign::Plus) => writer.string("plus"),
        Some(Sign::Minus) => writer.string("minus"),
        None => writer.null(),
    }
}

/// Appends a key and whether a flag is present.
fn put_flag(writer: &mut Writer, name: &str, flag: bool) -> Result<(), AllocError> {
    writer.key(name)?;
    writer.boolean(flag)?;
    Ok(())
}

/// Appends the case of hexadecimal digits, or null if it is not given.
#[inline(never)]
fn put_hex(writer: &mut Writer, hex: Option<DebugHex>) -> Result<(), AllocError> {
    match hex {
        Some(DebugHex::Lower) => writer.string("lower"),
        Some(DebugHex::Upper) => writer.string("upper"),
        None => writer.null(),
    }
}

/// Appends a format specification.
#[inline(never)]
fn put_format(writer: &mut Writer, format: &FormatSpec<'_>) -> Result<(), AllocError> {
    writer.begin_object()?;
    writer.key("fill")?;
    put_fill(writer, format.fill)?;
    put_maybe_span(writer, "fill_span", &format.fill_span)?;
    writer.key("align")?;
    put_align(writer, format.align)?;
    writer.key("sign")?;
    put_sign(writer, format.sign)?;
    put_flag(writer, "alternate", format.alternate)?;
    put_flag(writer, "zero_pad", format.zero_pad)?;
    writer.key("debug_hex")?;
    put_hex(writer, format.debug_hex)?;
    put_count(writer, "precision", &format.precision)?;
    put_maybe_span(writer, "precision_span", &format.precision_span)?;
    put_count(writer, "width", &format.width)?;
    put_maybe_span(writer, "width_span", &format.width_span)?;
    writer.key("ty")?;
    put_text(writer, format.ty)?;
    put_maybe_span(writer, "ty_span", &format.ty_span)?;
    writer.end_object()?;
    Ok(())
}

/// Appends a run of text.
fn put_run(writer: &mut Writer, text: &str) -> Result<(), AllocError> {
    begin_kind(writer, "text")?;
    writer.key("text")?;
    put_text(writer, text)?;
    writer.end_object()?;
    Ok(())
}

/// Appends a placeholder.
#[inline(never)]
fn put_placeholder(writer: &mut Writer, argument: &Argument<'_>) -> Result<(), AllocError> {
    begin_kind(writer, "placeholder")?;
    writer.key("position")?;
    put_position(writer, &argument.position)?;
    put_span_of(writer, "position_span", &argument.position_span)?;
    writer.key("format")?;
    put_format(writer, &argument.format)?;
    writer.end_object()?;
    Ok(())
}

/// Appends a piece. A placeholder is in `argument`.
pub fn put_piece(
    writer: &mut Writer,
    piece: &PieceKind<'_>,
    argument: &Argument<'_>,
) -> Result<(), AllocError> {
    match piece {
        PieceKind::Lit(text) => put_run(writer, text),
        PieceKind::NextArgument => put_placeholder(writer, argument),
    }
}
