//! Values that are written as JSON. Each function of this module appends to a writer.

// Extracted from crates/listing_json/src/fields.rt by tools/extract: not to be edited.
// That source has the contracts, and is proved. That this text means the same is only tested.

use crate::shim::alloc::AllocError;
use crate::shim::json::Writer;
use core::ops::Range;

/// Appends a text as a string.
#[inline]
pub fn put_text(writer: &mut Writer, text: &str) -> Result<(), AllocError> {
    writer.string(text)?;
    Ok(())
}

/// Appends a key and a string.
pub fn put_string(writer: &mut Writer, name: &str, text: &str) -> Result<(), AllocError> {
    writer.key(name)?;
    writer.string(text)?;
    Ok(())
}

/// Appends a key and a number.
pub fn put_number(writer: &mut Writer, name: &str, value: usize) -> Result<(), AllocError> {
    writer.key(name)?;
    writer.u64(value as u64)?;
    Ok(())
}

/// Appends a span.
#[inline(never)]
pub fn put_span(writer: &mut Writer, span: &Range<usize>) -> Result<(), AllocError> {
    writer.begin_object()?;
    put_number(writer, "start", span.start)?;
    put_number(writer, "end", span.end)?;
    writer.end_object()?;
    Ok(())
}

/// Appends a key and a span.
pub fn put_span_of(writer: &mut Writer, name: &str, span: &Range<usize>) -> Result<(), AllocError> {
    writer.key(name)?;
    put_span(writer, span)?;
    Ok(())
}

/// Appends a key and a span, or null if there is none.
#[inline(never)]
pub fn put_maybe_span(
    writer: &mut Writer,
    name: &str,
    span: &Option<Range<usize>>,
) -> Result<(), AllocError> {
    writer.key(name)?;
    match span {
        Some(span) => put_span(writer, span)?,
        None => writer.null()?,
    }
    Ok(())
}

/// Appends the start of an object of this kind.
pub fn begin_kind(writer: &mut Writer, kind: &str) -> Result<(), AllocError> {
    writer.begin_object()?;
    put_string(writer, "kind", kind)?;
    Ok(())
}

/// Appends an object of this kind with the index of an argument.
pub fn put_index(writer: &mut Writer, kind: &str, index: usize) -> Result<(), AllocError> {
    begin_kind(writer, kind)?;
    put_number(writer, "index", index)?;
    writer.end_object()?;
    Ok(())
}

/// Appends an object of this kind with the name of an argument.
pub fn put_name(writer: &mut Writer, kind: &str, name: &str) -> Result<(), AllocError> {
    begin_kind(writer, kind)?;
    writer.key("name")?;
    put_text(writer, name)?;
    writer.end_object()?;
    Ok(())
}
