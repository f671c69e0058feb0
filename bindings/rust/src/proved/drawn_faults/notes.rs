//! Notes of a diagnostic, and labels under a title. A function whose name begins with `put_`
//! appends to `out`.

// Extracted from crates/drawn_faults/src/notes.rt by tools/extract: not to be edited.
// That source has the contracts, and is proved. That this text means the same is only tested.

use crate::proved::drawn_faults::marked::{first_spot, frame_of, last_label_line, put_labels_rows};
use crate::proved::drawn_labels::Label;
use crate::proved::drawn_lines::{
    extent_of, glyph, glyph_count, palette_of, put_closing, put_decimal, put_glyphs, put_note_sign,
    put_opening, put_painted_text, put_parting, put_run, split_first, Frame, Gutter, Palette,
    Picture, Spot, Style,
};
use crate::proved::shown_text::{put_shown, Kind};
use crate::shim::alloc::AllocError;
use crate::shim::prelude::*;
use core::ops::Range;

/// A note of a diagnostic.
#[derive(Clone, Copy, Debug)]
pub struct SourceNote<'a> {
    /// Its text, of one or more lines.
    pub text: &'a str,
    /// The ranges of the source that it shows. A note without any is a row.
    pub spans: &'a [Range<usize>],
}

/// Returns labels of ranges that a note shows.
#[inline(never)]
fn shown_labels(
    picture: &Picture<'_>,
    spans: &[Range<usize>],
) -> Result<Vec<Label<'static>>, AllocError> {
    let mut list = Vec::new();
    for span in spans {
        list.push(Label {
            sign: '^',
            text: "",
            extent: extent_of(picture, span),
        });
    }
    Ok(list)
}

/// Returns the last line that notes show, or `last` if that is further down.
#[inline(never)]
pub fn last_note_line(
    picture: &Picture<'_>,
    last: usize,
    notes: &[SourceNote<'_>],
) -> Result<usize, AllocError> {
    let mut line = last;
    for note in notes {
        let labels = shown_labels(picture, note.spans)?;
        line = last_label_line(line, &labels);
    }
    Ok(line)
}

/// Adds where the text is that a diagnostic is about.
#[inline(never)]
fn put_arrow(out: &mut String, frame: &Frame<'_>, at: Spot) -> Result<(), AllocError> {
    let line = frame.picture.line_start as usize + at.line;
    let column = at.chars + 1;
    put_run(out, ' ', frame.gutter.columns)?;
    put_painted_text(out, frame.gutter.palette, Style::Secondary, "--> ")?;
    put_shown(out, Kind::Line, frame.picture.path)?;
    out.push_str(":");
    put_decimal(out, line)?;
    out.push_str(":");
    put_decimal(out, column)?;
    out.push_str("\n");
    Ok(())
}

/// Adds a title, in these colours, after a word, and labels under it.
#[inline(never)]
pub fn put_titled_labels(
    out: &mut String,
    frame: &Frame<'_>,
    palette: Palette,
    word: &str,
    title: &str,
    labels: &[Label<'_>],
) -> Result<(), AllocError> {
    put_painted_text(out, frame.gutter.palette, Style::Primary, word)?;
    put_opening(out, palette, Style::Bold)?;
    out.push_str(": ");
    put_glyphs(out, title, 0)?;
    put_closing(out, palette)?;
    out.push_str("\n");
    put_arrow(out, frame, first_spot(labels))?;
    put_parting(out, frame)?;
    put_labels_rows(out, frame, labels)?;
    Ok(())
}

/// Adds the text after a character of a note: after a line feed the margin of the next line.
fn put_margin(out: &mut String, gutter: Gutter, c: char) -> Result<(), AllocError> {
    if c == '\n' {
        put_run(out, ' ', gutter.columns)?;
        out.push_str("         ");
    }
    Ok(())
}

/// Adds a text of several lines, of which all but the first one begin with a margin.
#[inline(never)]
fn put_note_lines(out: &mut String, gutter: Gutter, text: &str) -> Result<(), AllocError> {
    let mut rest = text;
    while let Some((c, tail)) = split_first(rest) {
        put_run(out, glyph(c), glyph_count(c))?;
        put_margin(out, gutter, c)?;
        rest = tail;
    }
    Ok(())
}

/// Adds a text whose lines but the first one begin with a margin.
pub fn put_indented_text(out: &mut String, gutter: Gutter, text: &str) -> Result<(), AllocError> {
    if text.contains('\n') {
        put_note_lines(out, gutter, text)?;
    } else {
        put_glyphs(out, text, 0)?;
    }
    Ok(())
}

/// Adds the start of a note.
fn put_note_word(out: &mut String, gutter: Gutter) -> Result<(), AllocError> {
    put_run(out, ' ', gutter.columns)?;
    put_note_sign(out, gutter.palette)?;
    Ok(())
}

/// Adds a note that shows nothing.
fn put_plain_note(out: &mut String, gutter: Gutter, text: &str) -> Result<(), AllocError> {
    put_note_word(out, gutter)?;
    put_indented_text(out, gutter, text)?;
    out.push_str("\n");
    Ok(())
}

/// Adds a note with labels for what it shows.
#[inline(never)]
fn put_shown_note(
    out: &mut String,
    picture: &Picture<'_>,
    gutter: Gutter,
    text: &str,
    labels: &[Label<'_>],
) -> Result<(), AllocError> {
    match labels {
        [] => put_plain_note(out, gutter, text)?,
        _ => {
            let columns = gutter.columns;
            let palette = palette_of(picture.colours, Palette::Note);
            let frame = frame_of(picture, Gutter { columns, palette }, labels);
            put_titled_labels(out, &frame, Palette::Colourless, "note", text, labels)?;
        }
    }
    Ok(())
}

/// Adds notes.
#[inline(never)]
pub fn put_notes(
    out: &mut String,
    picture: &Picture<'_>,
    gutter: Gutter,
    notes: &[SourceNote<'_>],
) -> Result<(), AllocError> {
    for note in notes {
        let labels = shown_labels(picture, note.spans)?;
        put_shown_note(out, picture, gutter, note.text, &labels)?;
    }
    Ok(())
}
