//! The drawing of an error of the parser: that of the diagnostic which says what the error says.

// Extracted from crates/drawn_faults/src/drawing.rt by tools/extract: not to be edited.
// That source has the contracts, and is proved. That this text means the same is only tested.

use crate::proved::drawn_faults::diagnostics::{put_labels, Diagnostic, Level, SourceLabel};
use crate::proved::drawn_faults::helps::SourceHelp;
use crate::proved::drawn_faults::notes::SourceNote;
use crate::proved::drawn_lines::Picture;
use crate::proved::fault_fixes::{is_offered, Edit};
use crate::proved::rustc_parse_format::{ParseError, ParseMode, Suggestion};
use crate::shim::alloc::AllocError;
use crate::shim::prelude::*;
use core::ops::Range;

/// How many bytes a title and the text of a label have at most, besides those of the error.
const ROOM: usize = 32;

/// Returns the name of the compiler for the text of a literal in a mode.
fn text_name(mode: ParseMode) -> &'static str {
    match mode {
        ParseMode::InlineAsm => "asm template string",
        ParseMode::Format | ParseMode::Diagnostic | ParseMode::DiagnosticNamed => "format string",
    }
}

/// Returns the title of an error.
#[inline(never)]
fn title(mode: ParseMode, description: &str) -> Result<String, AllocError> {
    let mut title = String::with_capacity(description.len().saturating_add(ROOM));
    title.push_str("invalid ");
    title.push_str(text_name(mode));
    title.push_str(": ");
    title.push_str(description);
    Ok(title)
}

/// Returns the text of the label of an error.
#[inline(never)]
fn label_text(mode: ParseMode, label: &str) -> Result<String, AllocError> {
    let mut text = String::with_capacity(label.len().saturating_add(ROOM));
    text.push_str(label);
    text.push_str(" in ");
    text.push_str(text_name(mode));
    Ok(text)
}

/// Returns the text and the range of the second label, or `None` if there is none.
#[inline(never)]
fn second_text(mode: ParseMode, error: &ParseError) -> Option<(&str, &Range<usize>)> {
    if let Some((text, span)) = &error.secondary_label {
        return Some((text.as_str(), span));
    }
    if !is_offered(mode, &error.suggestion) {
        return None;
    }
    match &error.suggestion {
        Suggestion::RemoveRawIdent(span) => Some(("help: remove the `r#`", span)),
        Suggestion::AddMissingColon(span) => {
            Some(("help: add a colon before the format specifier: `:?`", span))
        }
        _ => None,
    }
}

/// Returns the labels of an error, of which the first one has this text.
#[inline(never)]
fn labels_of<'a>(
    mode: ParseMode,
    error: &'a ParseError,
    text: &'a str,
) -> Result<Vec<SourceLabel<'a>>, AllocError> {
    let mut labels = Vec::new();
    labels.push(SourceLabel {
        span: error.span.start..error.span.end,
        is_primary: true,
        text,
    });
    if let Some((text, span)) = second_text(mode, error) {
        labels.push(SourceLabel {
            span: span.start..span.end,
            is_primary: span.start == error.span.start && span.end == error.span.end,
            text,
        });
    }
    Ok(labels)
}

/// Returns the notes of an error.
#[inline(never)]
fn notes_of(note: &Option<String>) -> Result<Vec<SourceNote<'_>>, AllocError> {
    let mut notes = Vec::new();
    if let Some(text) = note {
        notes.push(SourceNote {
            text: text.as_str(),
            spans: &[],
        });
    }
    Ok(notes)
}

/// Returns the edit that is drawn with its old and its new lines, or none.
#[inline(never)]
fn edits_of(mode: ParseMode, suggestion: &Suggestion) -> Result<Vec<Edit<'_>>, AllocError> {
    let mut edits = Vec::new();
    if !is_offered(mode, suggestion) {
        return Ok(edits);
    }
    if let Suggestion::ReorderFormatParameter(span, text) = suggestion {
        edits.push(Edit {
            span: span.start..span.end,
            text: text.as_str(),
        });
    }
    Ok(edits)
}

/// Returns what the help with an edit says, or nothing without one.
#[inline(never)]
fn advice(edits: &[Edit<'_>]) -> Result<String, AllocError> {
    let mut advice = String::new();
    if let [edit, ..] = edits {
        advice.push_str("did you mean `");
        advice.push_str(edit.text);
        advice.push_str("`?");
    }
    Ok(advice)
}

/// Returns the help with this text and these edits, or none without edits.
fn helps_of<'a>(text: &'a str, edits: &'a [Edit<'a>]) -> Result<Vec<SourceHelp<'a>>, AllocError> {
    let mut helps = Vec::new();
    if !edits.is_empty() {
        helps.push(SourceHelp { text, edits });
    }
    Ok(helps)
}

/// Adds the drawing of an error. Returns `Err` if an allocation fails, or if the source has 2^59
/// bytes or more.
#[inline(never)]
fn put_error(
    out: &mut String,
    mode: ParseMode,
    picture: &Picture<'_>,
    error: &ParseError,
) -> Result<(), AllocError> {
    let title = title(mode, error.description.as_str())?;
    let text = label_text(mode, error.label.as_str())?;
    let labels = labels_of(mode, error, text.as_str())?;
    let notes = notes_of(&error.note)?;
    let edits = edits_of(mode, &error.suggestion)?;
    let advice = advice(edits.as_slice())?;
    let helps = helps_of(advice.as_str(), edits.as_slice())?;
    let diagnostic = Diagnostic {
        level: Level::Error,
        title: title.as_str(),
        labels: labels.as_slice(),
        notes: notes.as_slice(),
        helps: helps.as_slice(),
    };
    put_labels(out, picture, &diagnostic)
}

/// Returns the text that shows an error of a literal of this mode under its source, as rustc 1.95
/// draws it, with the colours that rustc gives it on a terminal if the picture has them. The spans
/// of the error are byte ranges of the literal: its parser had this literal as its snippet, and
/// that was the source literal.
///
/// It is what [`draw_labels`](crate::draw_labels) returns for the diagnostic that has the title,
/// the labels and the note of the error, and its suggestion, if one is made in this mode (see
/// [`edits`](fault_fixes::edits)). A suggestion to remove or to insert something is a second label,
/// one to replace a text is a help. Those for which the arguments of the call are needed,
/// `UsePositional` and `UseRustDebugPrintingMacro`, are left out.
///
/// Returns `Err` if an allocation fails, or if the source has 2^59 bytes or more.
pub fn draw(
    mode: ParseMode,
    picture: &Picture<'_>,
    error: &ParseError,
) -> Result<String, AllocError> {
    let mut out = String::new();
    put_drawing(&mut out, mode, picture, error)?;
    Ok(out)
}

/// Appends the text that [`draw`] returns to `out`. Returns `Err` if an allocation fails, or if the
/// source has 2^59 bytes or more; a part of the text may then be in `out`.
#[inline]
pub fn put_drawing(
    out: &mut String,
    mode: ParseMode,
    picture: &Picture<'_>,
    error: &ParseError,
) -> Result<(), AllocError> {
    put_error(out, mode, picture, error)?;
    Ok(())
}
