//! The hunks of a diff.

// Extracted from crates/unified_diff/src/hunks.rt by tools/extract: not to be edited.
// That source has the contracts, and is proved. That this text means the same is only tested.

use crate::proved::unified_diff::rows::{front, rest_after, rows_of, Row, Side};
use crate::shim::alloc::AllocError;
use crate::shim::itoa::Buffer;
use crate::shim::prelude::*;

/// The number of lines that both texts have before and after a change.
const CONTEXT: usize = 3;

/// The lines that are not in a diff so far: the number of lines before them in each text.
#[derive(Clone, Copy)]
struct Numbers {
    old: usize,
    new: usize,
}

/// Returns how many of these rows are in the old text, and how many in the new one.
#[inline(never)]
fn count(rows: &[Row<'_>]) -> Numbers {
    let mut numbers = Numbers { old: 0, new: 0 };
    for row in rows {
        if row.side != Side::New {
            numbers.old += 1;
        }
        if row.side != Side::Old {
            numbers.new += 1;
        }
    }
    numbers
}

/// Returns whether a line is in both texts.
#[inline]
fn is_shared(side: Side) -> bool {
    matches!(side, Side::Both)
}

/// Returns how many rows are before the first one that is in one text alone, or `None` if all are
/// in both.
fn first_change(rows: &[Row<'_>]) -> Option<usize> {
    for (index, row) in rows.iter().enumerate() {
        if !is_shared(row.side) {
            return Some(index);
        }
    }
    None
}

/// Returns how many of these rows, of which one of the first is a change, belong to one hunk.
#[inline(never)]
fn hunk_len(rows: &[Row<'_>]) -> usize {
    let mut count = 0usize;
    let mut change_end = 0usize;
    for row in rows {
        count = count.saturating_add(1);
        if !is_shared(row.side) {
            change_end = count;
        } else if count.saturating_sub(change_end) > 2 * CONTEXT {
            break;
        }
    }
    change_end.saturating_add(CONTEXT)
}

/// Appends a number in decimal digits.
#[inline]
fn put_number(out: &mut String, number: usize) -> Result<(), AllocError> {
    out.try_push_str(Buffer::new().format(number))
}

/// Appends where the lines of a hunk are in a text: the number of the first line, and how many
/// there are. Without a line the number is that of the line before.
#[inline(never)]
fn put_extent(out: &mut String, lines_before: usize, count: usize) -> Result<(), AllocError> {
    let first = if count == 0 {
        lines_before
    } else {
        lines_before + 1
    };
    put_number(out, first)?;
    out.push_str(",");
    put_number(out, count)
}

/// Returns the first byte of a line of the diff.
fn sign(side: Side) -> &'static str {
    match side {
        Side::Both => " ",
        Side::Old => "-",
        Side::New => "+",
    }
}

/// Appends what follows a line without an LF, and nothing after one with it.
fn put_line_end(out: &mut String, line: &str) -> Result<(), AllocError> {
    if line.as_bytes().ends_with(b"\n") {
        return Ok(());
    }
    out.try_push_str("\n\\ No newline at end of file\n")
}

/// Appends a row.
fn put_row(out: &mut String, row: &Row<'_>) -> Result<(), AllocError> {
    out.push_str(sign(row.side));
    out.push_str(row.line);
    put_line_end(out, row.line)
}

/// Appends rows.
fn put_rows(out: &mut String, rows: &[Row<'_>]) -> Result<(), AllocError> {
    for row in rows {
        put_row(out, row)?;
    }
    Ok(())
}

/// Appends a hunk of rows, with these numbers of lines before it.
#[inline(never)]
fn put_hunk(out: &mut String, numbers: Numbers, rows: &[Row<'_>]) -> Result<(), AllocError> {
    let row_numbers = count(rows);
    out.push_str("@@ -");
    put_extent(out, numbers.old, row_numbers.old)?;
    out.push_str(" +");
    put_extent(out, numbers.new, row_numbers.new)?;
    out.push_str(" @@\n");
    put_rows(out, rows)
}

/// Returns the numbers of lines after rows.
fn numbers_after(numbers: Numbers, rows: &[Row<'_>]) -> Numbers {
    let row_numbers = count(rows);
    Numbers {
        old: numbers.old + row_numbers.old,
        new: numbers.new + row_numbers.new,
    }
}

/// Appends all hunks of rows.
#[inline(never)]
fn put_hunks(out: &mut String, rows: &[Row<'_>]) -> Result<(), AllocError> {
    let mut rest = rows;
    let mut numbers = Numbers { old: 0, new: 0 };
    while let Some(change) = first_change(rest) {
        let gap = change.saturating_sub(CONTEXT);
        let others = rest_after(rest, gap);
        let length = hunk_len(others);
        let hunk = front(others, length);
        let start = numbers_after(numbers, front(rest, gap));
        put_hunk(out, start, hunk)?;
        numbers = numbers_after(start, hunk);
        rest = rest_after(others, length);
    }
    Ok(())
}

/// Returns whether a path is written in quotes.
fn wants_quotes(path: &str) -> bool {
    for c in path.chars() {
        if c == '"' || c == '\\' || c < ' ' || c == '\u{7f}' {
            return true;
        }
    }
    false
}

/// Appends a byte as an escape of C.
#[inline(never)]
fn put_octal(out: &mut String, byte: u32) -> Result<(), AllocError> {
    out.push('\\');
    put_number(out, (byte / 64) as usize)?;
    put_number(out, (byte / 8 % 8) as usize)?;
    put_number(out, (byte % 8) as usize)
}

/// Appends a character of a path in quotes.
#[inline(never)]
fn put_quoted(out: &mut String, c: char) -> Result<(), AllocError> {
    if c < ' ' || c == '\u{7f}' {
        return put_octal(out, c as u32);
    }
    if c == '"' || c == '\\' {
        out.push('\\');
    }
    out.try_push(c)
}

/// Appends the path of a text, in quotes with escapes of C if it is not UTF-8 or has a quote, a
/// backslash or a control character, and otherwise with a tab after it if it has a space.
#[inline(never)]
fn put_path(out: &mut String, path: &str) -> Result<(), AllocError> {
    if !wants_quotes(path) {
        out.push_str(path);
        if path.contains(' ') {
            out.push('\t');
        }
        return Ok(());
    }
    out.push('"');
    // After NUL there are two digits in base 16 of a byte that is not UTF-8.
    let (mut digits, mut byte) = (0u32, 0u32);
    for c in path.chars() {
        if c == '\0' {
            digits = 2;
        } else if digits > 0 {
            digits -= 1;
            byte = byte % 16 * 16 + c.to_digit(16).unwrap_or(0);
            if digits == 0 {
                put_octal(out, byte)?;
            }
        } else {
            put_quoted(out, c)?;
        }
    }
    out.try_push('"')
}

/// Appends the first two lines of a diff of the file with this path.
#[inline(never)]
fn put_head(out: &mut String, path: &str) -> Result<(), AllocError> {
    let mut name = String::new();
    put_path(&mut name, path)?;
    out.push_str("--- ");
    out.push_str(name.as_str());
    out.push_str("\n+++ ");
    out.push_str(name.as_str());
    out.push_str("\n");
    Ok(())
}

/// Appends the difference of an old and a new text of the file with this path as a unified diff,
/// with three lines of context, and nothing if they are the same. A line ends at an LF. The time
/// grows with both lengths.
#[inline(never)]
pub fn put_diff(out: &mut String, path: &str, old: &str, new: &str) -> Result<(), AllocError> {
    if old == new {
        return Ok(());
    }
    let rows = rows_of(old, new)?;
    put_head(out, path)?;
    put_hunks(out, rows.as_slice())?;
    Ok(())
}
