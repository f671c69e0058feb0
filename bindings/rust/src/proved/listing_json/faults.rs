//! Faults as JSON. Each function of this module appends to a writer.

// Extracted from crates/listing_json/src/faults.rt by tools/extract: not to be edited.
// That source has the contracts, and is proved. That this text means the same is only tested.

use super::fields::{begin_kind, put_span_of, put_string};
use crate::proved::rustc_parse_format::{Fault, ParseError, Suggestion};
use crate::shim::alloc::AllocError;
use crate::shim::json::Writer;
use crate::shim::prelude::*;
use core::ops::Range;

/// Appends a note, or null if there is none.
fn put_note(writer: &mut Writer, note: &Option<String>) -> Result<(), AllocError> {
    match note {
        Some(text) => writer.string(text.as_str()),
        None => writer.null(),
    }
}

/// Appends a label and its span.
#[inline(never)]
fn put_label(writer: &mut Writer, label: &str, span: &Range<usize>) -> Result<(), AllocError> {
    writer.begin_object()?;
    put_string(writer, "label", label)?;
    put_span_of(writer, "span", span)?;
    writer.end_object()?;
    Ok(())
}

/// Appends a second label with its span, or null if there is none.
fn put_secondary(
    writer: &mut Writer,
    second: &Option<(String, Range<usize>)>,
) -> Result<(), AllocError> {
    match second {
        Some((label, span)) => put_label(writer, label.as_str(), span),
        None => writer.null(),
    }
}

/// Appends a suggestion of this kind for a span.
fn put_mend(writer: &mut Writer, kind: &str, span: &Range<usize>) -> Result<(), AllocError> {
    begin_kind(writer, kind)?;
    put_span_of(writer, "span", span)?;
    writer.end_object()?;
    Ok(())
}

/// Appends a suggestion of this kind without a span.
fn put_bare_mend(writer: &mut Writer, kind: &str) -> Result<(), AllocError> {
    begin_kind(writer, kind)?;
    writer.end_object()?;
    Ok(())
}

/// Appends the suggestion to replace a span by a text.
#[inline(never)]
fn put_reorder(writer: &mut Writer, span: &Range<usize>, text: &str) -> Result<(), AllocError> {
    begin_kind(writer, "reorder-format-parameter")?;
    put_span_of(writer, "span", span)?;
    put_string(writer, "text", text)?;
    writer.end_object()?;
    Ok(())
}

/// Appends a suggestion, or null if there is none.
#[inline(never)]
fn put_suggestion(writer: &mut Writer, suggestion: &Suggestion) -> Result<(), AllocError> {
    match suggestion {
        Suggestion::None => writer.null(),
        Suggestion::UsePositional => put_bare_mend(writer, "use-positional"),
        Suggestion::RemoveRawIdent(span) => put_mend(writer, "remove-raw-ident", span),
        Suggestion::ReorderFormatParameter(span, text) => put_reorder(writer, span, text.as_str()),
        Suggestion::AddMissingColon(span) => put_mend(writer, "add-missing-colon", span),
        Suggestion::UseRustDebugPrintingMacro => {
            put_bare_mend(writer, "use-rust-debug-printing-macro")
        }
    }
}

/// Appends the error of a fault with this id.
#[inline(never)]
fn put_error(writer: &mut Writer, id: &str, error: &ParseError) -> Result<(), AllocError> {
    begin_kind(writer, "fault")?;
    put_string(writer, "id", id)?;
    put_string(writer, "description", error.description.as_str())?;
    writer.key("note")?;
    put_note(writer, &error.note)?;
    put_string(writer, "label", error.label.as_str())?;
    put_span_of(writer, "span", &error.span)?;
    writer.key("secondary_label")?;
    put_secondary(writer, &error.secondary_label)?;
    writer.key("suggestion")?;
    put_suggestion(writer, &error.suggestion)?;
    writer.end_object()?;
    Ok(())
}

/// Appends a fault.
pub fn put_fault(writer: &mut Writer, fault: &Fault<'_>) -> Result<(), AllocError> {
    let error = fault.error()?;
    put_error(writer, fault.id(), &error)
}
