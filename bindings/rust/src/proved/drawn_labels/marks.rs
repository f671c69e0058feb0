//! The rows under a line with several labels. A function whose name begins with `put_` appends to
//! `out` or writes into a row.

// Extracted from crates/drawn_labels/src/marks.rt by tools/extract: not to be edited.
// That source has the contracts, and is proved. That this text means the same is only tested.

use crate::proved::drawn_labels::cells::{
    put_cell_at, put_run_at, put_spaced_text, put_text_from, put_written_cells, style_of,
    text_style, Cell,
};
use crate::proved::drawn_labels::hanging::{depth, has_text, hung_labels, HungLabel};
use crate::proved::drawn_labels::mark::Mark;
use crate::proved::drawn_labels::order::covered_first;
use crate::proved::drawn_lines::{put_gutter, Gutter};
use crate::shim::alloc::AllocError;
use crate::shim::prelude::*;

/// How many columns most rows have at most.
const ROOM: usize = 128;

/// Puts the text of a label that stands right of its signs into a row.
fn put_side_text(row: &mut Vec<Cell>, label: &HungLabel<'_>) -> Result<(), AllocError> {
    let mark = &label.mark;
    if has_text(mark) && label.depth == 0 {
        put_spaced_text(row, mark.end, text_style(mark), mark.text)?;
    }
    Ok(())
}

/// Puts the texts of labels that stand right of their signs into a row.
fn put_side_texts(row: &mut Vec<Cell>, labels: &[HungLabel<'_>]) -> Result<(), AllocError> {
    for first in labels {
        put_side_text(row, first)?;
    }
    Ok(())
}

/// Puts the signs of a label into a row.
fn put_signs_of(row: &mut Vec<Cell>, mark: &Mark<'_>) -> Result<(), AllocError> {
    let style = style_of(mark);
    let character = mark.sign;
    let columns = mark.end.saturating_sub(mark.start);
    put_run_at(row, mark.start, columns, Cell { character, style })?;
    Ok(())
}

/// Puts the signs of labels into a row, each over those before it.
fn put_signs(row: &mut Vec<Cell>, marks: &[Mark<'_>]) -> Result<(), AllocError> {
    for mark in marks {
        put_signs_of(row, mark)?;
    }
    Ok(())
}

/// Returns the row of signs of labels, with the texts right of them.
fn sign_row(marks: &[Mark<'_>], labels: &[HungLabel<'_>]) -> Result<Vec<Cell>, AllocError> {
    let mut row = Vec::with_capacity(ROOM);
    put_side_texts(&mut row, labels)?;
    let covered_marks = covered_first(marks)?;
    put_signs(&mut row, &covered_marks)?;
    Ok(row)
}

/// Puts the bar of a label that hangs more than `n` rows down into a row.
fn put_bar(row: &mut Vec<Cell>, n: usize, label: &HungLabel<'_>) -> Result<(), AllocError> {
    if has_text(&label.mark) && n < label.depth {
        let style = style_of(&label.mark);
        let character = '|';
        put_cell_at(row, label.mark.start, Cell { character, style })?;
    }
    Ok(())
}

/// Puts the bars of labels into the row with `n` rows between it and the signs.
fn put_bars(row: &mut Vec<Cell>, n: usize, labels: &[HungLabel<'_>]) -> Result<(), AllocError> {
    for first in labels {
        put_bar(row, n, first)?;
    }
    Ok(())
}

/// Puts the text of a label that hangs `n` rows down into a row.
fn put_hung_text(row: &mut Vec<Cell>, n: usize, label: &HungLabel<'_>) -> Result<(), AllocError> {
    let mark = &label.mark;
    if has_text(mark) && label.depth > 0 && n == label.depth {
        put_text_from(row, mark.start, text_style(mark), mark.text)?;
    }
    Ok(())
}

/// Puts the texts of labels that hang `n` rows down into a row.
fn put_hung_texts(
    row: &mut Vec<Cell>,
    n: usize,
    labels: &[HungLabel<'_>],
) -> Result<(), AllocError> {
    for first in labels {
        put_hung_text(row, n, first)?;
    }
    Ok(())
}

/// Returns the row with `n` rows between it and the signs.
fn hung_row(n: usize, labels: &[HungLabel<'_>]) -> Result<Vec<Cell>, AllocError> {
    let mut row = Vec::with_capacity(ROOM);
    put_bars(&mut row, n, labels)?;
    put_hung_texts(&mut row, n, labels)?;
    Ok(row)
}

/// Adds a row under a line.
fn put_row(out: &mut String, gutter: Gutter, row: &[Cell]) -> Result<(), AllocError> {
    put_gutter(out, gutter)?;
    put_written_cells(out, gutter.palette, row)?;
    out.push_str("\n");
    Ok(())
}

/// Adds so many rows below the signs.
fn put_hung_rows(
    out: &mut String,
    gutter: Gutter,
    count: usize,
    labels: &[HungLabel<'_>],
) -> Result<(), AllocError> {
    for row_number in 0..count {
        let row = hung_row(row_number, labels)?;
        put_row(out, gutter, &row)?;
    }
    Ok(())
}

/// Adds the rows below the signs, of labels that hang as far down as `max_depth`.
fn put_rows_below(
    out: &mut String,
    gutter: Gutter,
    max_depth: usize,
    labels: &[HungLabel<'_>],
) -> Result<(), AllocError> {
    if max_depth == 0 {
        return Ok(());
    }
    put_hung_rows(out, gutter, max_depth, labels)?;
    let row = hung_row(max_depth, labels)?;
    put_row(out, gutter, &row)?;
    Ok(())
}

/// Adds the rows of hung labels.
fn put_rows_of(
    out: &mut String,
    gutter: Gutter,
    marks: &[Mark<'_>],
    labels: &[HungLabel<'_>],
) -> Result<(), AllocError> {
    let row = sign_row(marks, labels)?;
    put_row(out, gutter, &row)?;
    put_rows_below(out, gutter, depth(labels), labels)?;
    Ok(())
}

/// Adds the rows under a line, of labels in it from right to left.
pub fn put_mark_rows(
    out: &mut String,
    gutter: Gutter,
    marks: &[Mark<'_>],
) -> Result<(), AllocError> {
    let labels = hung_labels(marks)?;
    put_rows_of(out, gutter, marks, &labels)?;
    Ok(())
}
