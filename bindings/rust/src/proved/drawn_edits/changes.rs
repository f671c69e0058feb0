//! The rows of edits. A function whose name begins with `put_` appends to `out`.

// Extracted from crates/drawn_edits/src/changes.rt by tools/extract: not to be edited.
// That source has the contracts, and is proved. That this text means the same is only tested.

use crate::proved::drawn_edits::edit_rows::{
    put_kept_lines, put_kept_row, put_sign_row, put_sign_rows,
};
use crate::proved::drawn_edits::edited::{
    are_blank, do_remove, have_addition, is_added, is_same_end, new_lines, old_lines, parts_of,
    Edit, Line, Part,
};
use crate::proved::drawn_lines::{
    after_lines, put_gutter, put_painted_run, put_parting, put_run, split_first, width, Frame,
    Gutter, Palette, Style,
};
use crate::shim::alloc::AllocError;
use crate::shim::prelude::*;

/// Returns the only addition of a line, or `None` if there are several, or a text of the line is in
/// front of it.
#[inline(never)]
fn lone_addition<'a>(parts: &[Part<'a>]) -> Option<&'a str> {
    for (index, part) in parts.iter().enumerate() {
        if is_added(part) {
            if have_addition(&parts[index + 1..]) {
                return None;
            }
            return Some(part.text);
        }
        if !part.text.is_empty() {
            return None;
        }
    }
    None
}

/// Returns how many cells a text takes, if a tab takes four of them, and another character one.
/// Returns `Err` if it is too long for memory.
#[inline(never)]
fn cells_of(text: &str) -> Result<usize, AllocError> {
    if text.len() >= 1 << (usize::BITS - 5) {
        return crate::shim::alloc::refuse();
    }
    let mut cells = 0;
    let mut rest = text;
    while let Some((c, tail)) = split_first(rest) {
        cells += if c == '\t' { 4 } else { 1 };
        rest = tail;
    }
    Ok(cells)
}

/// Returns whether parts have so many bytes.
#[inline(never)]
fn have_bytes(count: usize, parts: &[Part<'_>]) -> bool {
    let mut countdown = count;
    for part in parts {
        if countdown < part.text.len() {
            return false;
        }
        countdown -= part.text.len();
    }
    countdown == 0
}

/// Returns the sign of a changed line, or `None` if it has none.
#[inline(never)]
fn sign_of(parts: &[Part<'_>]) -> Result<Option<&'static str>, AllocError> {
    let Some(text) = lone_addition(parts) else {
        return Ok(Some("~ "));
    };
    let cells = cells_of(text)?;
    if have_bytes(cells, parts) {
        return Ok(Some("+ "));
    }
    if text.is_empty() {
        return Ok(None);
    }
    Ok(Some("~ "))
}

/// Adds the row of a changed line.
#[inline(never)]
fn put_changed_row(
    out: &mut String,
    frame: &Frame<'_>,
    number: usize,
    parts: &[Part<'_>],
) -> Result<(), AllocError> {
    match sign_of(parts)? {
        None => put_kept_row(out, frame, number, parts)?,
        Some(sign) => put_sign_row(out, frame, Style::Addition, sign, number, parts)?,
    }
    Ok(())
}

/// Adds the rows of several new lines up to the last changed one, from a number on.
#[inline(never)]
fn put_changed_rows(
    out: &mut String,
    frame: &Frame<'_>,
    number: usize,
    lines: &[Line<'_>],
) -> Result<(), AllocError> {
    let mut first_index = 0;
    for (index, line) in lines.iter().enumerate() {
        if have_addition(&line.parts) {
            put_kept_lines(out, frame, number + first_index, &lines[first_index..index])?;
            put_changed_row(out, frame, number + index, &line.parts)?;
            first_index = index + 1;
        }
    }
    Ok(())
}

/// Adds the row of a new line, unless it is blank.
#[inline(never)]
fn put_new_row(
    out: &mut String,
    frame: &Frame<'_>,
    number: usize,
    lines: &[Line<'_>],
) -> Result<(), AllocError> {
    if let [line, ..] = lines {
        if !are_blank(&line.parts) {
            put_sign_row(out, frame, Style::Addition, "+ ", number, &line.parts)?;
        }
    }
    Ok(())
}

/// Adds the rows of old lines and of a new one.
#[inline(never)]
fn put_replaced_rows(
    out: &mut String,
    frame: &Frame<'_>,
    number: usize,
    old: &[Line<'_>],
    new: &[Line<'_>],
) -> Result<(), AllocError> {
    if is_same_end(old, new)? {
        let (front, _) = old.split_at(old.len().saturating_sub(1));
        return Ok(put_sign_rows(
            out,
            frame,
            Style::Removal,
            "- ",
            number,
            front,
        )?);
    }
    put_sign_rows(out, frame, Style::Removal, "- ", number, old)?;
    put_new_row(out, frame, number, new)?;
    Ok(())
}

/// Returns how many columns a text takes. Returns `Err` if it is too long for memory.
#[inline(never)]
fn columns_of(text: &str) -> Result<usize, AllocError> {
    if text.len() >= 1 << (usize::BITS - 5) {
        return crate::shim::alloc::refuse();
    }
    let mut columns = 0;
    let mut rest = text;
    while let Some((c, tail)) = split_first(rest) {
        columns += width(c);
        rest = tail;
    }
    Ok(columns)
}

/// Adds the signs under an addition, after so many spaces. Returns how many columns after these
/// signs the addition ends.
#[inline(never)]
fn put_pluses(
    out: &mut String,
    palette: Palette,
    gap: usize,
    text: &str,
) -> Result<usize, AllocError> {
    let trimmed_text = text.trim_start();
    let columns = columns_of(text)?;
    let trimmed_columns = columns_of(trimmed_text)?;
    if trimmed_text.is_empty() {
        put_run(out, ' ', gap)?;
        put_painted_run(out, palette, Style::Addition, '+', columns)?;
        return Ok(0);
    }
    let Some(space_count) = gap.checked_add(columns.saturating_sub(trimmed_columns)) else {
        return crate::shim::alloc::refuse();
    };
    let signs = columns_of(trimmed_text.trim_end())?;
    put_run(out, ' ', space_count)?;
    put_painted_run(out, palette, Style::Addition, '+', signs)?;
    Ok(trimmed_columns.saturating_sub(signs))
}

/// Adds the signs under the additions of a line.
#[inline(never)]
fn put_plus_signs(
    out: &mut String,
    palette: Palette,
    parts: &[Part<'_>],
) -> Result<(), AllocError> {
    let mut gap = 0;
    for part in parts {
        if is_added(part) {
            gap = put_pluses(out, palette, gap, part.text)?;
        } else {
            let columns = columns_of(part.text)?;
            let Some(sum) = gap.checked_add(columns) else {
                return crate::shim::alloc::refuse();
            };
            gap = sum;
        }
    }
    Ok(())
}

/// Adds the row of these signs.
fn put_plus_row(out: &mut String, gutter: Gutter, parts: &[Part<'_>]) -> Result<(), AllocError> {
    put_gutter(out, gutter)?;
    put_plus_signs(out, gutter.palette, parts)?;
    out.push_str("\n");
    Ok(())
}

/// Returns whether a line has nothing but an addition that ends it.
fn is_whole(parts: &[Part<'_>]) -> bool {
    match parts {
        [before, _] => are_blank(&[*before]),
        _ => false,
    }
}

/// Adds the rows of a line in which something is added.
#[inline(never)]
fn put_inserted_rows(
    out: &mut String,
    frame: &Frame<'_>,
    number: usize,
    lines: &[Line<'_>],
) -> Result<(), AllocError> {
    let [line, ..] = lines else {
        return Ok(());
    };
    if is_whole(&line.parts) {
        put_sign_row(out, frame, Style::Addition, "+ ", number, &line.parts)?;
        put_parting(out, frame)?;
    } else {
        put_sign_row(out, frame, Style::Secondary, "| ", number, &line.parts)?;
        put_plus_row(out, frame.gutter, &line.parts)?;
    }
    Ok(())
}

/// Adds the rows of parts in one new line.
#[inline(never)]
fn put_line_rows(
    out: &mut String,
    frame: &Frame<'_>,
    number: usize,
    parts: &[Part<'_>],
    new: &[Line<'_>],
) -> Result<(), AllocError> {
    if !do_remove(parts) {
        return Ok(put_inserted_rows(out, frame, number, new)?);
    }
    let old = old_lines(parts)?;
    if old.len() >= 1 << (usize::BITS - 5) {
        return crate::shim::alloc::refuse();
    }
    put_replaced_rows(out, frame, number, &old, new)?;
    put_parting(out, frame)?;
    Ok(())
}

/// Adds the rows of parts with these new lines.
#[inline(never)]
fn put_new_rows(
    out: &mut String,
    frame: &Frame<'_>,
    number: usize,
    parts: &[Part<'_>],
    new: &[Line<'_>],
) -> Result<(), AllocError> {
    if new.len() <= 1 {
        return Ok(put_line_rows(out, frame, number, parts, new)?);
    }
    if new.len() >= 1 << (usize::BITS - 5) {
        return crate::shim::alloc::refuse();
    }
    put_changed_rows(out, frame, number, new)?;
    put_parting(out, frame)?;
    Ok(())
}

/// Returns the parts of edits from a line on.
fn edited_parts<'a>(
    frame: &Frame<'a>,
    number: usize,
    edits: &[Edit<'a>],
) -> Result<Vec<Part<'a>>, AllocError> {
    let source = frame.picture.source;
    let text = after_lines(source, number);
    parts_of(source.len() - text.len(), text, edits)
}

/// Adds the rows of edits from a line on.
#[inline(never)]
fn put_rows_from(
    out: &mut String,
    frame: &Frame<'_>,
    number: usize,
    edits: &[Edit<'_>],
) -> Result<(), AllocError> {
    put_parting(out, frame)?;
    let parts = edited_parts(frame, number, edits)?;
    let new = new_lines(&parts)?;
    put_new_rows(out, frame, number, &parts, &new)?;
    Ok(())
}

/// Adds the rows of edits.
pub fn put_rows(out: &mut String, frame: &Frame<'_>, edits: &[Edit<'_>]) -> Result<(), AllocError> {
    match edits {
        [] => {}
        [first, ..] => put_rows_from(out, frame, first.extent.start.line, edits)?,
    }
    Ok(())
}
