//! The lines of pieces and of errors. Each function that returns a `Result` returns
//! `Err` if an allocation fails; `put_` in a name means that it appends to `out`.

// Extracted from crates/piece_listing/src/listing.rt by tools/extract: not to be edited.
// That source has the contracts, and is proved. That this text means the same is only tested.

use super::numbers::{put_number, put_span};
use crate::proved::rustc_parse_format::{
    put_all_written, put_written, Alignment, Argument, Count, DebugHex, FormatSpec, ParseError,
    Position, Sign,
};
use crate::shim::alloc::AllocError;
use crate::shim::prelude::*;
use core::ops::Range;

/// Adds a text, escaped, between quotes.
pub fn put_quoted(out: &mut String, text: &str) -> Result<(), AllocError> {
    out.push('"');
    put_all_written(out, text)?;
    out.push('"');
    Ok(())
}

/// Adds the line of a piece of literal text.
pub(crate) fn put_literal(out: &mut String, text: &str) -> Result<(), AllocError> {
    out.push_str("lit \"");
    put_all_written(out, text)?;
    out.push_str("\"\n");
    Ok(())
}

/// Adds a label and then a name, neither of them escaped.
#[inline(always)]
fn put_name(out: &mut String, label: &str, name: &str) -> Result<(), AllocError> {
    out.push_str(label);
    out.push_str(name);
    Ok(())
}

/// Adds the span of the part before it, if that has one.
fn put_span_at(out: &mut String, span: &Option<Range<usize>>) -> Result<(), AllocError> {
    if let Some(span) = span {
        put_span(out, '@', span)?;
    }
    Ok(())
}

/// Adds the first word of the line of a placeholder, and then its position.
#[inline(never)]
fn put_position(out: &mut String, position: &Position<'_>) -> Result<(), AllocError> {
    match position {
        Position::ArgumentImplicitlyIs(n) => put_number(out, "arg implicit ", *n)?,
        Position::ArgumentIs(n) => put_number(out, "arg index ", *n)?,
        Position::ArgumentNamed(name) => put_name(out, "arg name ", name)?,
    }
    Ok(())
}

/// Adds a fill character and its span, if there is one.
#[inline(never)]
fn put_fill(
    out: &mut String,
    fill: Option<char>,
    span: &Option<Range<usize>>,
) -> Result<(), AllocError> {
    if let Some(c) = fill {
        out.push_str(" fill=\"");
        put_written(out, c)?;
        out.push('"');
        put_span_at(out, span)?;
    }
    Ok(())
}

/// Adds an alignment, if there is one.
#[inline(never)]
fn put_alignment(out: &mut String, align: Alignment) -> Result<(), AllocError> {
    match align {
        Alignment::AlignLeft => out.push_str(" align=left"),
        Alignment::AlignRight => out.push_str(" align=right"),
        Alignment::AlignCenter => out.push_str(" align=center"),
        Alignment::AlignUnknown => {}
    }
    Ok(())
}

/// Adds a sign flag, if there is one.
#[inline(never)]
fn put_sign(out: &mut String, sign: Option<Sign>) -> Result<(), AllocError> {
    match sign {
        None => {}
        Some(Sign::Plus) => out.push_str(" sign=+"),
        Some(Sign::Minus) => out.push_str(" sign=-"),
    }
    Ok(())
}

/// Adds the name of a flag, if the flag is set.
#[inline]
fn put_flag(out: &mut String, name: &str, flag: bool) -> Result<(), AllocError> {
    if flag {
        out.push_str(name);
    }
    Ok(())
}

/// Adds the fill character, the alignment and the flags of a specification.
#[inline(never)]
fn put_flags(out: &mut String, spec: &FormatSpec<'_>) -> Result<(), AllocError> {
    put_fill(out, spec.fill, &spec.fill_span)?;
    put_alignment(out, spec.align)?;
    put_sign(out, spec.sign)?;
    put_flag(out, " alt", spec.alternate)?;
    put_flag(out, " zero", spec.zero_pad)?;
    Ok(())
}

/// Adds a width or a precision.
#[inline(never)]
fn put_count(out: &mut String, count: &Count<'_>) -> Result<(), AllocError> {
    match count {
        Count::CountIs(n) => put_number(out, "is:", usize::from(*n))?,
        Count::CountIsName(name, span) => {
            put_name(out, "name:", name)?;
            put_span(out, '@', span)?;
        }
        Count::CountIsParam(n) => put_number(out, "param:", *n)?,
        Count::CountIsStar(n) => put_number(out, "star:", *n)?,
        Count::CountImplied => out.push_str("implied"),
    }
    Ok(())
}

/// Adds a part that is a width or a precision: its name, the count and its span.
#[inline(always)]
fn put_named_count(
    out: &mut String,
    name: &str,
    count: &Count<'_>,
    span: &Option<Range<usize>>,
) -> Result<(), AllocError> {
    out.push_str(name);
    put_count(out, count)?;
    put_span_at(out, span)?;
    Ok(())
}

/// Adds a width, unless there is none.
fn put_width(
    out: &mut String,
    width: &Count<'_>,
    span: &Option<Range<usize>>,
) -> Result<(), AllocError> {
    if matches!(width, Count::CountImplied) {
        return Ok(());
    }
    put_named_count(out, " width=", width, span)?;
    Ok(())
}

/// Adds a precision, if it has a span.
fn put_precision(
    out: &mut String,
    precision: &Count<'_>,
    span: &Option<Range<usize>>,
) -> Result<(), AllocError> {
    if let Some(_) = span {
        put_named_count(out, " precision=", precision, span)?;
    }
    Ok(())
}

/// Adds the case of the hexadecimal digits of a debug format, if it has one.
#[inline(never)]
fn put_hex(out: &mut String, hex: Option<DebugHex>) -> Result<(), AllocError> {
    match hex {
        None => {}
        Some(DebugHex::Lower) => out.push_str(" hex=lower"),
        Some(DebugHex::Upper) => out.push_str(" hex=upper"),
    }
    Ok(())
}

/// Adds a type, unless it is empty and has no span.
#[inline(never)]
fn put_type(out: &mut String, ty: &str, span: &Option<Range<usize>>) -> Result<(), AllocError> {
    if span.is_none() && ty.is_empty() {
        return Ok(());
    }
    out.push_str(" ty=");
    put_quoted(out, ty)?;
    put_span_at(out, span)?;
    Ok(())
}

/// Adds the width, the precision and the type of a specification.
#[inline(never)]
fn put_values(out: &mut String, spec: &FormatSpec<'_>) -> Result<(), AllocError> {
    put_width(out, &spec.width, &spec.width_span)?;
    put_precision(out, &spec.precision, &spec.precision_span)?;
    put_hex(out, spec.debug_hex)?;
    put_type(out, spec.ty, &spec.ty_span)?;
    Ok(())
}

/// Adds the line of a placeholder.
#[inline(never)]
pub(crate) fn put_argument(out: &mut String, argument: &Argument<'_>) -> Result<(), AllocError> {
    put_position(out, &argument.position)?;
    put_span(out, ' ', &argument.position_span)?;
    put_flags(out, &argument.format)?;
    put_values(out, &argument.format)?;
    out.push('\n');
    Ok(())
}

/// Adds the line of an error.
#[inline(never)]
fn put_fault(out: &mut String, error: &ParseError) -> Result<(), AllocError> {
    out.push_str("fault");
    put_span(out, ' ', &error.span)?;
    out.push(' ');
    out.push_str(error.description.as_str());
    out.push('\n');
    Ok(())
}

/// Adds a line for each error, in their order.
pub(crate) fn put_faults(out: &mut String, errors: &[ParseError]) -> Result<(), AllocError> {
    for error in errors {
        put_fault(out, error)?;
    }
    Ok(())
}
