//! The form of rustc's `--error-format=json`. A function whose name begins with `put_` appends to
//! `out`.

// Extracted from crates/emit/src/json_lines.rt by tools/extract: not to be edited.
// That source has the contracts, and is proved. That this text means the same is only tested.

use crate::proved::emit::members::{
    put_comma, put_count, put_end, put_key, put_text, put_text_or_null, put_truth,
};
use crate::proved::emit::message::{child_name, level_name, Child, Message, Span, Suggestion};
use crate::shim::alloc::AllocError;
use crate::shim::prelude::*;

/// Adds a line of a span, which is between these columns there.
#[inline(never)]
fn put_line(out: &mut String, line: &str, from: usize, to: usize) -> Result<(), AllocError> {
    put_text(out, false, "text", line)?;
    put_count(out, true, "highlight_start", from)?;
    put_count(out, true, "highlight_end", to)?;
    put_end(out)?;
    Ok(())
}

/// Returns a line without the CR at its end, if it has one.
fn without_cr(line: &str) -> &str {
    match line.strip_suffix('\r') {
        Some(front) => front,
        None => line,
    }
}

/// Returns the first line of a text without its line end, and the text after that.
fn split_line(text: &str) -> (&str, &str) {
    match text.split_once('\n') {
        Some((line, rest)) => (without_cr(line), rest),
        None => (without_cr(text), ""),
    }
}

/// Returns the number of characters of a text.
#[inline]
fn length_of(text: &str) -> usize {
    text.chars().count()
}

/// Adds the lines of a span that begins and ends at these columns, where `line_count` lines come
/// after the first one.
#[inline(never)]
fn put_lines(
    out: &mut String,
    lines: &str,
    from: usize,
    to: usize,
    line_count: usize,
) -> Result<(), AllocError> {
    out.push_str("[");
    let mut rest = lines;
    let mut start = from;
    let mut countdown = line_count;
    while countdown > 0 {
        let (line, tail) = split_line(rest);
        put_line(out, line, start, length_of(line) + 1)?;
        out.push_str(",");
        rest = tail;
        start = 1;
        countdown -= 1;
    }
    let (line, _) = split_line(rest);
    put_line(out, line, start, to)?;
    out.push_str("]");
    Ok(())
}

/// Adds an array without items.
#[inline]
fn put_empty_array(out: &mut String) -> Result<(), AllocError> {
    out.push_str("[]");
    Ok(())
}

/// Adds the lines of a span, or no line if they are not shown.
#[inline(never)]
fn put_span_lines(out: &mut String, span: &Span<'_>) -> Result<(), AllocError> {
    let Some(lines) = span.lines else {
        return Ok(put_empty_array(out)?);
    };
    let line_count = span.end.line.saturating_sub(span.start.line);
    put_lines(out, lines, span.start.column, span.end.column, line_count)?;
    Ok(())
}

/// Adds the members that say where a span is.
#[inline(never)]
fn put_places(out: &mut String, path: &str, span: &Span<'_>) -> Result<(), AllocError> {
    put_text(out, false, "file_name", path)?;
    put_count(out, true, "byte_start", span.byte_start)?;
    put_count(out, true, "byte_end", span.byte_end)?;
    put_count(out, true, "line_start", span.start.line)?;
    put_count(out, true, "line_end", span.end.line)?;
    put_count(out, true, "column_start", span.start.column)?;
    put_count(out, true, "column_end", span.end.column)?;
    Ok(())
}

/// Returns the text of a suggestion, or `None` if there is no suggestion.
fn replacement<'a>(suggestion: &Option<Suggestion<'a>>) -> Option<&'a str> {
    match suggestion {
        Some(suggestion) => Some(suggestion.text),
        None => None,
    }
}

/// Returns the word for how sure a suggestion is, or `None` if there is no suggestion.
fn applicability(suggestion: &Option<Suggestion<'_>>) -> Option<&'static str> {
    match suggestion {
        Some(suggestion) if suggestion.is_sure => Some("MachineApplicable"),
        Some(_) => Some("MaybeIncorrect"),
        None => None,
    }
}

/// Adds the members of a span that come after its places, and the end of its object.
#[inline(never)]
fn put_details(out: &mut String, span: &Span<'_>) -> Result<(), AllocError> {
    put_truth(out, true, "is_primary", span.is_primary)?;
    put_key(out, true, "text")?;
    put_span_lines(out, span)?;
    put_text_or_null(out, "label", span.label)?;
    let text = replacement(&span.suggestion);
    put_text_or_null(out, "suggested_replacement", text)?;
    let word = applicability(&span.suggestion);
    put_text_or_null(out, "suggestion_applicability", word)?;
    put_text_or_null(out, "expansion", None)?;
    put_end(out)?;
    Ok(())
}

/// Adds a span.
fn put_span(out: &mut String, path: &str, span: &Span<'_>) -> Result<(), AllocError> {
    put_places(out, path, span)?;
    put_details(out, span)?;
    Ok(())
}

/// Adds spans.
#[inline(never)]
fn put_spans(out: &mut String, path: &str, spans: &[Span<'_>]) -> Result<(), AllocError> {
    out.push_str("[");
    let mut is_later = false;
    for span in spans {
        put_comma(out, is_later)?;
        put_span(out, path, span)?;
        is_later = true;
    }
    out.push_str("]");
    Ok(())
}

/// Adds a note or a help.
#[inline(never)]
fn put_child(out: &mut String, path: &str, child: &Child<'_, '_>) -> Result<(), AllocError> {
    put_text(out, false, "message", child.text)?;
    put_text_or_null(out, "code", None)?;
    put_text(out, true, "level", child_name(child.level))?;
    put_key(out, true, "spans")?;
    put_spans(out, path, child.spans)?;
    put_key(out, true, "children")?;
    put_empty_array(out)?;
    put_text_or_null(out, "rendered", None)?;
    put_end(out)?;
    Ok(())
}

/// Adds notes and helps.
#[inline(never)]
fn put_children(
    out: &mut String,
    path: &str,
    children: &[Child<'_, '_>],
) -> Result<(), AllocError> {
    out.push_str("[");
    let mut is_later = false;
    for child in children {
        put_comma(out, is_later)?;
        put_child(out, path, child)?;
        is_later = true;
    }
    out.push_str("]");
    Ok(())
}

/// Adds the id of a message.
fn put_code(out: &mut String, id: &str) -> Result<(), AllocError> {
    put_text(out, false, "code", id)?;
    put_text_or_null(out, "explanation", None)?;
    put_end(out)?;
    Ok(())
}

/// Adds the spans of a message, its notes and helps and its drawing, and the end of its object.
#[inline(never)]
fn put_below(
    out: &mut String,
    path: &str,
    spans: &[Span<'_>],
    children: &[Child<'_, '_>],
    rendered: &str,
) -> Result<(), AllocError> {
    put_key(out, true, "spans")?;
    put_spans(out, path, spans)?;
    put_key(out, true, "children")?;
    put_children(out, path, children)?;
    put_text(out, true, "rendered", rendered)?;
    put_end(out)?;
    Ok(())
}

/// Appends a message as a line of JSON with the members that rustc writes with
/// `--error-format=json`: its ranges, its notes and helps, and its drawing for people. Its id
/// stands in the place of rustc's code.
#[inline(never)]
pub fn put_json(
    out: &mut String,
    message: &Message<'_>,
    spans: &[Span<'_>],
    children: &[Child<'_, '_>],
    rendered: &str,
) -> Result<(), AllocError> {
    put_text(out, false, "$message_type", "diagnostic")?;
    put_text(out, true, "message", message.title)?;
    put_key(out, true, "code")?;
    put_code(out, message.id)?;
    put_text(out, true, "level", level_name(message.level))?;
    put_below(out, message.path, spans, children, rendered)?;
    out.push_str("\n");
    Ok(())
}
