//! How lines of the source are cut to a width. A function whose name begins with `put_` appends to
//! `out`.

// Extracted from crates/drawn_lines/src/window.rt by tools/extract: not to be edited.
// That source has the contracts, and is proved. That this text means the same is only tested.

use crate::proved::drawn_lines::frame::Frame;
use crate::proved::drawn_lines::glyphs::{
    glyph, glyph_count, put_glyphs, put_run, split_first, width,
};
use crate::proved::drawn_lines::paint::{put_painted_text, Palette, Style};
use crate::proved::drawn_lines::places::line;
use crate::proved::drawn_lines::printable::split_printable;
use crate::shim::alloc::AllocError;
use crate::shim::prelude::*;

/// The columns of lines that are drawn.
#[derive(Clone, Copy)]
pub struct Window {
    /// How many columns at the start of each line are cut.
    pub start: usize,
    /// How many columns of a line are drawn right of these without a cut.
    pub room: usize,
    /// How many columns are drawn of a line that has more.
    pub limit: usize,
}

/// Returns how many columns a text takes.
pub fn columns(text: &str) -> usize {
    let (front, rest_after) = split_printable(text, text.len());
    let mut count = front.len();
    let mut rest = rest_after;
    while let Some((c, tail)) = split_first(rest) {
        let (front, rest_after) = split_printable(tail, tail.len());
        count += width(c) + front.len();
        rest = rest_after;
    }
    count
}

/// A text without its first columns.
#[derive(Clone, Copy)]
struct Cut<'a> {
    rest: &'a str,
    /// How many columns are left out.
    columns: usize,
}

/// Returns a text without its first `count` columns.
fn past_columns(text: &str, count: usize) -> Cut<'_> {
    let mut rest = text;
    let mut countdown = count;
    let mut columns = 0;
    while let Some((c, tail)) = split_first(rest) {
        if countdown == 0 {
            break;
        }
        columns += width(c);
        countdown = countdown.saturating_sub(width(c));
        rest = tail;
    }
    Cut { rest, columns }
}

/// Columns at the start of a text, some of which are left out.
#[derive(Clone, Copy)]
struct Countdown {
    /// How many are left out.
    columns: usize,
    /// How many are still to be left out.
    rest: usize,
}

/// Leaves out up to `count` columns of a character that stands `times` times at the start of a
/// text.
fn left_out_of_run(count: usize, times: usize, character: char) -> Countdown {
    let mut countdown = count;
    let mut columns = 0;
    let mut rest = times;
    while rest > 0 && countdown > 0 {
        columns += width(character);
        countdown = countdown.saturating_sub(width(character));
        rest -= 1;
    }
    Countdown {
        columns,
        rest: countdown,
    }
}

/// Returns how many columns are left out if the first `count` columns of a text, as it is drawn,
/// are.
fn left_out_columns(text: &str, count: usize) -> usize {
    let mut rest = text;
    let mut countdown = count;
    let mut columns = 0;
    while let Some((c, tail)) = split_first(rest) {
        if countdown == 0 {
            break;
        }
        let run = left_out_of_run(countdown, glyph_count(c), glyph(c));
        columns += run.columns;
        countdown = run.rest;
        rest = tail;
    }
    columns
}

/// Returns how many columns at the start of a line of the source are cut.
pub fn shift(frame: &Frame<'_>, number: usize) -> usize {
    if frame.window.start == 0 {
        return 0;
    }
    left_out_columns(line(frame.picture.source, number), frame.window.start)
}

/// Adds the first characters of a text, as many as end within `count` columns.
fn put_front_columns(out: &mut String, text: &str, count: usize) -> Result<(), AllocError> {
    let mut rest = text;
    let mut countdown = count;
    while let Some((c, tail)) = split_first(rest) {
        if countdown < width(c) {
            break;
        }
        out.push(c);
        countdown -= width(c);
        rest = tail;
    }
    Ok(())
}

/// Adds the part of a line in the window.
fn put_in_window(
    out: &mut String,
    window: Window,
    is_wide: bool,
    row: &str,
) -> Result<(), AllocError> {
    let Cut { rest, .. } = past_columns(row, window.start);
    if is_wide {
        put_front_columns(out, rest, window.limit)?;
    } else {
        out.push_str(rest);
    }
    Ok(())
}

/// Adds the dots over the first characters of a part of a line, if the line is cut in front of it.
/// Returns the rest of the part.
fn put_dots_before<'a>(
    out: &mut String,
    palette: Palette,
    window: Window,
    part: &'a str,
) -> Result<&'a str, AllocError> {
    if window.start == 0 {
        return Ok(part);
    }
    let Cut { rest, columns } = past_columns(part, 3);
    put_painted_text(out, palette, Style::Secondary, "...")?;
    put_run(out, ' ', columns.saturating_sub(3))?;
    Ok(rest)
}

/// Adds this rest, with dots over its last characters if the line goes on.
fn put_up_to_dots(
    out: &mut String,
    palette: Palette,
    is_wide: bool,
    rest: &str,
) -> Result<(), AllocError> {
    if !is_wide {
        return Ok(out.push_str(rest));
    }
    put_front_columns(out, rest, columns(rest).saturating_sub(3))?;
    put_painted_text(out, palette, Style::Secondary, "...")?;
    Ok(())
}

/// Adds a part of a line.
fn put_dotted_part(
    out: &mut String,
    palette: Palette,
    window: Window,
    is_wide: bool,
    part: &str,
) -> Result<(), AllocError> {
    let rest = put_dots_before(out, palette, window, part)?;
    put_up_to_dots(out, palette, is_wide, rest)?;
    Ok(())
}

/// Adds a line, of which this is the text that is drawn, cut to the window.
fn put_cut(
    out: &mut String,
    palette: Palette,
    window: Window,
    is_wide: bool,
    row: &str,
) -> Result<(), AllocError> {
    if row.len() >= 1 << (usize::BITS - 5) {
        return crate::shim::alloc::refuse();
    }
    let mut part = String::new();
    put_in_window(&mut part, window, is_wide, row)?;
    if part.len() >= 1 << (usize::BITS - 5) {
        return crate::shim::alloc::refuse();
    }
    put_dotted_part(out, palette, window, is_wide, part.as_str())?;
    Ok(())
}

/// Adds a line as it is drawn.
pub fn put_shown_line(
    out: &mut String,
    palette: Palette,
    window: Window,
    text: &str,
) -> Result<(), AllocError> {
    if text.len() >= 1 << (usize::BITS - 5) {
        return crate::shim::alloc::refuse();
    }
    let (front, rest) = split_printable(text, text.len());
    if window.start == 0 && rest.is_empty() && front.len() <= window.room {
        return Ok(out.push_str(front));
    }
    let is_wide = columns(text).saturating_sub(window.start) > window.room;
    if window.start == 0 && !is_wide {
        return Ok(put_glyphs(out, text, 0)?);
    }
    let mut row = String::new();
    put_glyphs(&mut row, text, 0)?;
    put_cut(out, palette, window, is_wide, row.as_str())?;
    Ok(())
}
