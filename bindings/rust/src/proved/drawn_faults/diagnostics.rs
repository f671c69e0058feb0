//! The drawing of a diagnostic under its source: a title, several labels, notes and helps. A
//! function whose name begins with `put_` appends to `out`.

// Extracted from crates/drawn_faults/src/diagnostics.rt by tools/extract: not to be edited.
// That source has the contracts, and is proved. That this text means the same is only tested.

use crate::proved::drawn_faults::helps::{last_help_line, put_helps, SourceHelp};
use crate::proved::drawn_faults::marked::{frame_of, last_label_line};
use crate::proved::drawn_faults::notes::{
    last_note_line, put_notes, put_titled_labels, SourceNote,
};
use crate::proved::drawn_labels::Label;
use crate::proved::drawn_lines::{
    digits, extent_of, palette_of, put_parting, Frame, Gutter, Palette, Picture,
};
use crate::shim::alloc::AllocError;
use crate::shim::prelude::*;
use core::ops::Range;

/// The severity of a diagnostic.
#[derive(Clone, Copy, Debug, Eq, PartialEq)]
pub enum Level {
    /// The source does not compile.
    Error,
    /// The source compiles, but may not do what is meant.
    Warning,
}

/// A label of a range of the source.
#[derive(Clone, Debug, Eq, PartialEq)]
pub struct SourceLabel<'a> {
    /// The range.
    pub span: Range<usize>,
    /// Whether the diagnostic is about this range: its sign is `^`, and that of the others `-`.
    pub is_primary: bool,
    /// Its text, which may be empty.
    pub text: &'a str,
}

/// A diagnostic that is drawn under its source.
#[derive(Clone, Copy, Debug)]
pub struct Diagnostic<'a> {
    /// The severity: an error or a warning.
    pub level: Level,
    /// The message, which is drawn first.
    pub title: &'a str,
    /// The labels, in any order.
    pub labels: &'a [SourceLabel<'a>],
    /// The notes.
    pub notes: &'a [SourceNote<'a>],
    /// The helps.
    pub helps: &'a [SourceHelp<'a>],
}

/// Returns a label with its place in the source.
fn label_of<'a>(picture: &Picture<'_>, label: &SourceLabel<'a>) -> Label<'a> {
    Label {
        sign: if label.is_primary { '^' } else { '-' },
        text: label.text,
        extent: extent_of(picture, &label.span),
    }
}

/// Returns labels with their places in the source.
fn labels_of<'a>(
    picture: &Picture<'_>,
    labels: &[SourceLabel<'a>],
) -> Result<Vec<Label<'a>>, AllocError> {
    let mut list = Vec::new();
    for label in labels {
        list.push(label_of(picture, label));
    }
    Ok(list)
}

/// Returns the gutter of a diagnostic with these labels.
#[inline(never)]
fn gutter_of(
    picture: &Picture<'_>,
    diagnostic: &Diagnostic<'_>,
    labels: &[Label<'_>],
) -> Result<Gutter, AllocError> {
    let last = last_label_line(0, labels);
    let last = last_note_line(picture, last, diagnostic.notes)?;
    let last = last_help_line(picture, last, diagnostic.helps)?;
    let columns = digits(picture.line_start as usize + last);
    let palette = palette_of(picture.colours, level_of(diagnostic.level));
    Ok(Gutter { columns, palette })
}

/// Adds the row between the labels and what is below them, if there is anything.
#[inline(never)]
fn put_parting_above(
    out: &mut String,
    frame: &Frame<'_>,
    diagnostic: &Diagnostic<'_>,
) -> Result<(), AllocError> {
    if diagnostic.notes.is_empty() && diagnostic.helps.is_empty() {
        return Ok(());
    }
    put_parting(out, frame)?;
    Ok(())
}

/// Returns the word that a title begins with.
#[inline]
fn level_word(level: Level) -> &'static str {
    match level {
        Level::Error => "error",
        Level::Warning => "warning",
    }
}

/// Returns the level whose colours a diagnostic has.
fn level_of(level: Level) -> Palette {
    match level {
        Level::Error => Palette::Error,
        Level::Warning => Palette::Warning,
    }
}

/// Adds the drawing of a diagnostic with these labels in a layout.
#[inline(never)]
fn put_drawn_diagnostic(
    out: &mut String,
    frame: &Frame<'_>,
    diagnostic: &Diagnostic<'_>,
    labels: &[Label<'_>],
) -> Result<(), AllocError> {
    put_titled_labels(
        out,
        frame,
        frame.gutter.palette,
        level_word(diagnostic.level),
        diagnostic.title,
        labels,
    )?;
    put_parting_above(out, frame, diagnostic)?;
    put_notes(out, frame.picture, frame.gutter, diagnostic.notes)?;
    put_helps(out, frame, diagnostic.helps)?;
    out.push_str("\n");
    Ok(())
}

/// How many bytes most drawings have at most, besides their title.
const ROOM: usize = 768;

/// Adds the drawing of a diagnostic.
#[inline(never)]
fn put_diagnostic(
    out: &mut String,
    picture: &Picture<'_>,
    diagnostic: &Diagnostic<'_>,
) -> Result<(), AllocError> {
    out.reserve(diagnostic.title.len().saturating_add(ROOM));
    let labels = labels_of(picture, diagnostic.labels)?;
    let gutter = gutter_of(picture, diagnostic, &labels)?;
    let frame = frame_of(picture, gutter, &labels);
    put_drawn_diagnostic(out, &frame, diagnostic, &labels)?;
    Ok(())
}

/// Appends the text that [`draw_labels`] returns to `out`. Returns `Err` if an allocation fails, or
/// if the source has 2^59 bytes or more; a part of the text may then be in `out`.
pub fn put_labels(
    out: &mut String,
    picture: &Picture<'_>,
    diagnostic: &Diagnostic<'_>,
) -> Result<(), AllocError> {
    if picture.source.len() >= 1 << (usize::BITS - 5) {
        return crate::shim::alloc::refuse();
    }
    put_diagnostic(out, picture, diagnostic)?;
    Ok(())
}
