//! A label over several lines. A function whose name begins with `put_` appends to `out`.

// Extracted from crates/drawn_labels/src/long.rt by tools/extract: not to be edited.
// That source has the contracts, and is proved. That this text means the same is only tested.

use crate::proved::drawn_labels::labels::Label;
use crate::proved::drawn_lines::{
    line, put_closing, put_gutter, put_number_bar, put_opening, put_painted_glyphs,
    put_painted_text, put_run, put_source, put_source_line, shift, split_first, Frame, Gutter,
    Palette, Style,
};
use crate::shim::alloc::AllocError;
use crate::shim::prelude::*;

/// Returns whether a character is a bracket.
fn is_bracket(c: char) -> bool {
    c == '(' || c == ')' || c == '[' || c == ']' || c == '{' || c == '}'
}

/// Returns whether a line with this text after `//` is a comment, but no documentation.
fn is_plain_comment(text: &str) -> bool {
    match split_first(text) {
        None => true,
        Some((c, _)) => c != '/' && c != '!',
    }
}

/// Returns whether a line with this text after `/` is a comment, but no documentation.
fn is_comment(text: &str) -> bool {
    match split_first(text) {
        None => false,
        Some((c, rest)) => c == '/' && is_plain_comment(rest),
    }
}

/// Returns whether a text is only white space.
fn is_blank(text: &str) -> bool {
    let mut rest = text;
    while let Some((c, tail)) = split_first(rest) {
        if !c.is_whitespace() {
            return false;
        }
        rest = tail;
    }
    true
}

/// Returns whether a line is blank, a comment, or one bracket.
fn is_bare(line: &str) -> bool {
    let mut rest = line;
    while let Some((c, tail)) = split_first(rest) {
        if !c.is_whitespace() {
            if is_bracket(c) {
                return is_blank(tail);
            }
            return c == '/' && is_comment(tail);
        }
        rest = tail;
    }
    true
}

/// Returns whether the line of the source with a number is bare.
#[inline]
fn is_bare_line(frame: &Frame<'_>, number: usize) -> bool {
    is_bare(line(frame.picture.source, number))
}

/// Returns how many of the lines after a line are left without the bare ones at their end.
fn without_bare(frame: &Frame<'_>, first: usize, count: usize) -> usize {
    let mut lines = count;
    while lines > 0 && is_bare_line(frame, first + lines) {
        lines -= 1;
    }
    lines
}

/// Adds a line of the source at the right of a sign of the label.
fn put_signed_row(
    out: &mut String,
    frame: &Frame<'_>,
    sign: &str,
    number: usize,
) -> Result<(), AllocError> {
    put_number_bar(out, frame, number)?;
    out.push_str(" ");
    put_painted_text(out, frame.gutter.palette, Style::Primary, sign)?;
    put_source_line(out, frame, " ", number)?;
    Ok(())
}

/// Adds a line between the first and the last one.
#[inline]
fn put_bar_row(out: &mut String, frame: &Frame<'_>, number: usize) -> Result<(), AllocError> {
    put_signed_row(out, frame, "|", number)?;
    Ok(())
}

/// Adds so many lines after a line.
fn put_bar_rows(
    out: &mut String,
    frame: &Frame<'_>,
    first: usize,
    count: usize,
) -> Result<(), AllocError> {
    for rest_after in 0..count {
        put_bar_row(out, frame, first + rest_after + 1)?;
    }
    Ok(())
}

/// Adds the rows between two lines of the label that are drawn.
fn put_bar_gap(
    out: &mut String,
    frame: &Frame<'_>,
    first: usize,
    last: usize,
) -> Result<(), AllocError> {
    if last == first + 2 {
        put_bar_row(out, frame, first + 1)?;
    } else if last > first + 2 {
        put_painted_text(out, frame.gutter.palette, Style::Secondary, "...")?;
        put_run(out, ' ', frame.gutter.columns)?;
        put_painted_text(out, frame.gutter.palette, Style::Primary, "|")?;
        out.push_str("\n");
    }
    Ok(())
}

/// Adds a text, a line to a column after it, and the sign at its end.
fn put_lead(
    out: &mut String,
    palette: Palette,
    front: &str,
    columns: usize,
) -> Result<(), AllocError> {
    put_opening(out, palette, Style::Primary)?;
    out.push_str(front);
    put_run(out, '_', columns)?;
    out.push_str("^");
    put_closing(out, palette)?;
    Ok(())
}

/// Adds the row under the first line of a label.
fn put_start(out: &mut String, gutter: Gutter, columns: usize) -> Result<(), AllocError> {
    put_gutter(out, gutter)?;
    put_lead(out, gutter.palette, " ", columns)?;
    out.push_str("\n");
    Ok(())
}

/// Adds the first line of a label.
fn put_first_rows(
    out: &mut String,
    frame: &Frame<'_>,
    label: &Label<'_>,
) -> Result<(), AllocError> {
    let start = label.extent.start;
    if start.is_indent {
        put_signed_row(out, frame, "/", start.line)?;
    } else {
        put_source(out, frame, "   ", start.line)?;
        let columns = start.column.saturating_sub(shift(frame, start.line)) + 1;
        put_start(out, frame.gutter, columns)?;
    }
    Ok(())
}

/// Adds the text of a label right of its sign, if it has one.
fn put_end_text(out: &mut String, palette: Palette, text: &str) -> Result<(), AllocError> {
    if text.is_empty() {
        return Ok(());
    }
    out.push_str(" ");
    put_painted_glyphs(out, palette, Style::PrimaryText, text)?;
    Ok(())
}

/// Adds the row under the last line of a label.
fn put_end(out: &mut String, gutter: Gutter, columns: usize, text: &str) -> Result<(), AllocError> {
    put_gutter(out, gutter)?;
    put_lead(out, gutter.palette, "|", columns)?;
    put_end_text(out, gutter.palette, text)?;
    out.push_str("\n");
    Ok(())
}

/// Adds the last line of a label.
fn put_last_rows(out: &mut String, frame: &Frame<'_>, label: &Label<'_>) -> Result<(), AllocError> {
    let end = label.extent.end;
    let columns = end.column.saturating_sub(shift(frame, end.line)).max(1);
    put_bar_row(out, frame, end.line)?;
    put_end(out, frame.gutter, columns, label.text)?;
    Ok(())
}

/// Adds the rows between the first and the last line of a label.
fn put_rows_between(
    out: &mut String,
    frame: &Frame<'_>,
    first: usize,
    last: usize,
) -> Result<(), AllocError> {
    let rest_after = last.saturating_sub(first).saturating_sub(1);
    let count = without_bare(frame, first, rest_after.min(3));
    put_bar_rows(out, frame, first, count)?;
    if last > first + 5 && !is_bare_line(frame, last - 1) {
        put_bar_gap(out, frame, first + count, last - 1)?;
        put_bar_row(out, frame, last - 1)?;
    } else {
        put_bar_gap(out, frame, first + count, last)?;
    }
    Ok(())
}

/// Adds the lines of a label over several lines.
pub fn put_long_label(
    out: &mut String,
    frame: &Frame<'_>,
    label: &Label<'_>,
) -> Result<(), AllocError> {
    put_first_rows(out, frame, label)?;
    put_rows_between(out, frame, label.extent.start.line, label.extent.end.line)?;
    put_last_rows(out, frame, label)?;
    Ok(())
}
