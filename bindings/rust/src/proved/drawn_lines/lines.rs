//! Lines of the source, and the gutter. A function whose name begins with `put_` appends to `out`.

// Extracted from crates/drawn_lines/src/lines.rt by tools/extract: not to be edited.
// That source has the contracts, and is proved. That this text means the same is only tested.

use crate::proved::drawn_lines::frame::{digits, Frame};
use crate::proved::drawn_lines::glyphs::{draws_nothing, put_run};
use crate::proved::drawn_lines::paint::{
    put_closing, put_gutter_bar, put_opening, put_painted_text, Gutter, Palette, Style,
};
use crate::proved::drawn_lines::places::line;
use crate::proved::drawn_lines::window::{put_shown_line, Window};
use crate::shim::alloc::AllocError;
use crate::shim::itoa::Buffer;
use crate::shim::prelude::*;

/// Adds a number in decimal digits.
pub fn put_decimal(out: &mut String, number: usize) -> Result<(), AllocError> {
    let mut digits = Buffer::new();
    out.push_str(digits.format(number));
    Ok(())
}

/// Adds the gutter of a row that has no number.
pub fn put_blank(out: &mut String, gutter: Gutter) -> Result<(), AllocError> {
    put_run(out, ' ', gutter.columns)?;
    put_gutter_bar(out, gutter.palette)?;
    Ok(())
}

/// Adds the gutter of a row under a line, and the space after it.
pub fn put_gutter(out: &mut String, gutter: Gutter) -> Result<(), AllocError> {
    put_blank(out, gutter)?;
    out.push_str(" ");
    Ok(())
}

/// Adds the row between two parts of the drawing.
pub fn put_parting(out: &mut String, frame: &Frame<'_>) -> Result<(), AllocError> {
    put_blank(out, frame.gutter)?;
    out.push_str("\n");
    Ok(())
}

/// Adds the number of a line of the source, at the right of its gutter.
pub fn put_line_number(out: &mut String, frame: &Frame<'_>, line: usize) -> Result<(), AllocError> {
    let number = frame.picture.line_start as usize + line;
    put_opening(out, frame.gutter.palette, Style::Secondary)?;
    put_run(
        out,
        ' ',
        frame.gutter.columns.saturating_sub(digits(number)),
    )?;
    put_decimal(out, number)?;
    put_closing(out, frame.gutter.palette)?;
    Ok(())
}

/// Adds the number of a line of the source, and the bar after it.
pub fn put_number_bar(out: &mut String, frame: &Frame<'_>, line: usize) -> Result<(), AllocError> {
    put_line_number(out, frame, line)?;
    put_gutter_bar(out, frame.gutter.palette)?;
    Ok(())
}

/// Adds the text after a bar: a line, after a text in front of it.
fn put_after_bar(
    out: &mut String,
    palette: Palette,
    front: &str,
    text: &str,
    window: Window,
) -> Result<(), AllocError> {
    if window.start > 0 || !draws_nothing(text) {
        out.push_str(front);
        put_shown_line(out, palette, window, text)?;
    }
    Ok(())
}

/// Adds a line of the source, after a text in front of it.
pub fn put_source_line(
    out: &mut String,
    frame: &Frame<'_>,
    front: &str,
    number: usize,
) -> Result<(), AllocError> {
    let line = line(frame.picture.source, number);
    put_after_bar(out, frame.gutter.palette, front, line, frame.window)?;
    out.push_str("\n");
    Ok(())
}

/// Adds a line of the source with its number, after a text in front of it.
pub fn put_source(
    out: &mut String,
    frame: &Frame<'_>,
    front: &str,
    number: usize,
) -> Result<(), AllocError> {
    put_number_bar(out, frame, number)?;
    put_source_line(out, frame, front, number)?;
    Ok(())
}

/// Adds a line of the source.
#[inline]
pub fn put_code(out: &mut String, frame: &Frame<'_>, number: usize) -> Result<(), AllocError> {
    put_source(out, frame, " ", number)?;
    Ok(())
}

/// Adds the rows between two lines with labels.
pub fn put_gap(
    out: &mut String,
    frame: &Frame<'_>,
    first: usize,
    last: usize,
) -> Result<(), AllocError> {
    if last == first + 2 {
        put_code(out, frame, first + 1)?;
    } else if last > first + 2 {
        put_painted_text(out, frame.gutter.palette, Style::Secondary, "...")?;
        out.push_str("\n");
    }
    Ok(())
}
