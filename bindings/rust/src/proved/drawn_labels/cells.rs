//! A row as cells, into which texts are put over one another. A function whose name begins with
//! `put_` writes into a row or appends to `out`.

// Extracted from crates/drawn_labels/src/cells.rt by tools/extract: not to be edited.
// That source has the contracts, and is proved. That this text means the same is only tested.

use crate::proved::drawn_labels::mark::Mark;
use crate::proved::drawn_lines::{
    glyph, glyph_count, has_colours, put_change, put_reset, split_first, Palette, Style,
};
use crate::shim::alloc::AllocError;
use crate::shim::prelude::*;

/// A character in a row.
#[derive(Clone, Copy)]
pub struct Cell {
    pub character: char,
    pub style: Style,
}

/// Returns the style of the signs of a label, and of its bar.
#[inline]
pub fn style_of(mark: &Mark<'_>) -> Style {
    if mark.sign == '^' {
        Style::Primary
    } else {
        Style::Secondary
    }
}

/// Returns the style of the text of a label.
#[inline]
pub fn text_style(mark: &Mark<'_>) -> Style {
    if mark.sign == '^' {
        Style::PrimaryText
    } else {
        Style::SecondaryText
    }
}

/// Returns a space.
#[inline]
fn space() -> Cell {
    Cell {
        character: ' ',
        style: Style::Plain,
    }
}

/// Puts a cell into a column of a row.
pub fn put_cell_at(row: &mut Vec<Cell>, column: usize, cell: Cell) -> Result<(), AllocError> {
    while row.len() < column {
        row.push(space());
    }
    if column < row.len() {
        row[column] = cell;
    } else {
        row.push(cell);
    }
    Ok(())
}

/// Puts a cell into so many columns of a row. Returns the column after them.
pub fn put_run_at(
    row: &mut Vec<Cell>,
    start: usize,
    count: usize,
    cell: Cell,
) -> Result<usize, AllocError> {
    let mut column = start;
    let mut countdown = count;
    while countdown > 0 {
        put_cell_at(row, column, cell)?;
        column += 1;
        countdown -= 1;
    }
    Ok(column)
}

/// Puts a space and then a text, as it is drawn, into a row from a column on.
pub fn put_spaced_text(
    row: &mut Vec<Cell>,
    start: usize,
    style: Style,
    text: &str,
) -> Result<(), AllocError> {
    let column = put_run_at(row, start, 1, space())?;
    put_text_from(row, column, style, text)?;
    Ok(())
}

/// Puts a text, as it is drawn, into a row from a column on.
pub fn put_text_from(
    row: &mut Vec<Cell>,
    start: usize,
    style: Style,
    text: &str,
) -> Result<(), AllocError> {
    let mut column = start;
    let mut rest = text;
    while let Some((c, tail)) = split_first(rest) {
        let character = glyph(c);
        column = put_run_at(row, column, glyph_count(c), Cell { character, style })?;
        rest = tail;
    }
    Ok(())
}

/// Adds the characters of cells in their styles.
fn put_styled_cells(out: &mut String, palette: Palette, cells: &[Cell]) -> Result<(), AllocError> {
    let mut style = Style::Plain;
    for cell in cells {
        put_change(out, palette, style, cell.style)?;
        out.push(cell.character);
        style = cell.style;
    }
    put_reset(out, style)?;
    Ok(())
}

/// Adds the characters of cells, in their styles if there are colours.
pub fn put_written_cells(
    out: &mut String,
    palette: Palette,
    cells: &[Cell],
) -> Result<(), AllocError> {
    if has_colours(palette) {
        return Ok(put_styled_cells(out, palette, cells)?);
    }
    for cell in cells {
        out.push(cell.character);
    }
    Ok(())
}
