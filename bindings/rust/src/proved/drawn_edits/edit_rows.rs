//! Rows of lines with edits. A function whose name begins with `put_` appends to `out`.

// Extracted from crates/drawn_edits/src/edit_rows.rt by tools/extract: not to be edited.
// That source has the contracts, and is proved. That this text means the same is only tested.

use crate::proved::drawn_edits::edited::{Line, Part};
use crate::proved::drawn_lines::{
    draws_nothing, has_colours, put_glyphs, put_glyphs_after, put_line_number, put_number_bar,
    put_painted_text, put_reset, put_run, put_sign, Frame, Palette, Style,
};
use crate::shim::alloc::AllocError;
use crate::shim::prelude::*;

/// Adds parts of a line without their colours.
fn put_plain_parts(out: &mut String, parts: &[Part<'_>]) -> Result<(), AllocError> {
    for part in parts {
        put_glyphs(out, part.text, 0)?;
    }
    Ok(())
}

/// Adds parts of a line in colours, after a sign of this style.
#[inline(never)]
fn put_coloured_parts(
    out: &mut String,
    palette: Palette,
    style: Style,
    sign: &str,
    parts: &[Part<'_>],
) -> Result<(), AllocError> {
    put_sign(out, palette, style, sign)?;
    let mut last = style;
    for part in parts {
        last = put_glyphs_after(out, palette, last, part.style, part.text)?;
    }
    put_reset(out, last)?;
    Ok(())
}

/// Adds parts of a line, after a sign of this style.
#[inline(never)]
fn put_parts(
    out: &mut String,
    palette: Palette,
    style: Style,
    sign: &str,
    parts: &[Part<'_>],
) -> Result<(), AllocError> {
    if has_colours(palette) {
        return Ok(put_coloured_parts(out, palette, style, sign, parts)?);
    }
    out.push_str(sign);
    put_plain_parts(out, parts)?;
    Ok(())
}

/// Adds the row of a line with a number, after a sign of this style.
#[inline(never)]
pub fn put_sign_row(
    out: &mut String,
    frame: &Frame<'_>,
    style: Style,
    sign: &str,
    number: usize,
    parts: &[Part<'_>],
) -> Result<(), AllocError> {
    put_line_number(out, frame, number)?;
    out.push_str(" ");
    put_parts(out, frame.gutter.palette, style, sign, parts)?;
    out.push_str("\n");
    Ok(())
}

/// Adds the rows of lines after a sign of this style, from a number on.
#[inline(never)]
pub fn put_sign_rows(
    out: &mut String,
    frame: &Frame<'_>,
    style: Style,
    sign: &str,
    number: usize,
    lines: &[Line<'_>],
) -> Result<(), AllocError> {
    for (index, line) in lines.iter().enumerate() {
        put_sign_row(out, frame, style, sign, number + index, &line.parts)?;
    }
    Ok(())
}

/// Returns whether nothing is drawn of parts of a line.
fn draw_nothing(parts: &[Part<'_>]) -> bool {
    for part in parts {
        if !draws_nothing(part.text) {
            return false;
        }
    }
    true
}

/// Adds the text after the bar of a line.
fn put_spaced_text(out: &mut String, parts: &[Part<'_>]) -> Result<(), AllocError> {
    if !draw_nothing(parts) {
        out.push_str(" ");
        put_plain_parts(out, parts)?;
    }
    Ok(())
}

/// Adds the row of a line with a number that no edit changes.
pub fn put_kept_row(
    out: &mut String,
    frame: &Frame<'_>,
    number: usize,
    parts: &[Part<'_>],
) -> Result<(), AllocError> {
    put_number_bar(out, frame, number)?;
    put_spaced_text(out, parts)?;
    out.push_str("\n");
    Ok(())
}

/// Adds the rows of such lines, from a number on.
#[inline(never)]
fn put_kept_rows(
    out: &mut String,
    frame: &Frame<'_>,
    number: usize,
    lines: &[Line<'_>],
) -> Result<(), AllocError> {
    for (index, line) in lines.iter().enumerate() {
        put_kept_row(out, frame, number + index, &line.parts)?;
    }
    Ok(())
}

/// Adds the rows of lines from the number `n` on, and of others from `m` on, and dots between them.
#[inline(never)]
fn put_kept_ends(
    out: &mut String,
    frame: &Frame<'_>,
    n: usize,
    m: usize,
    first: &[Line<'_>],
    last: &[Line<'_>],
) -> Result<(), AllocError> {
    put_kept_rows(out, frame, n, first)?;
    put_run(out, ' ', frame.gutter.columns.saturating_sub(3))?;
    put_painted_text(out, frame.gutter.palette, Style::Secondary, "...")?;
    out.push_str("\n");
    put_kept_rows(out, frame, m, last)?;
    Ok(())
}

/// Adds the rows of such lines in front of a changed one: of more than three the first and the last
/// one.
#[inline(never)]
pub fn put_kept_lines(
    out: &mut String,
    frame: &Frame<'_>,
    number: usize,
    lines: &[Line<'_>],
) -> Result<(), AllocError> {
    if lines.len() > 3 {
        let (first, _) = lines.split_at(1);
        let (_, last) = lines.split_at(lines.len() - 1);
        put_kept_ends(out, frame, number, number + (lines.len() - 1), first, last)?;
    } else {
        put_kept_rows(out, frame, number, lines)?;
    }
    Ok(())
}
