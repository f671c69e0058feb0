//! The lines of two texts beside each other.

// Extracted from crates/unified_diff/src/rows.rt by tools/extract: not to be edited.
// That source has the contracts, and is proved. That this text means the same is only tested.

use crate::shim::alloc::AllocError;
use crate::shim::prelude::*;

/// The most lines of a text in which a line that both have is looked for.
const WINDOW: usize = 8;

/// In which of two texts a line is.
#[derive(Clone, Copy, Debug, Eq, PartialEq)]
pub enum Side {
    /// In both.
    Both,
    /// In the old one.
    Old,
    /// In the new one.
    New,
}

/// A line of one text or of both.
#[derive(Clone, Copy, Debug)]
pub struct Row<'a> {
    /// Where the line is.
    pub side: Side,
    /// The line, with its LF if it has one.
    pub line: &'a str,
}

/// Returns the lines of a text, each with its LF; the last one may have none.
fn lines_of<'a>(text: &'a str) -> Result<Vec<&'a str>, AllocError> {
    let mut lines = Vec::new();
    for line in text.split_inclusive('\n') {
        lines.push(line);
    }
    Ok(lines)
}

/// Returns how many lines at the ends of two texts are the same.
#[inline(never)]
fn common_end(old: &[&str], new: &[&str]) -> usize {
    let mut count = 0;
    while count < old.len() && count < new.len() {
        if *old[old.len() - 1 - count] != *new[new.len() - 1 - count] {
            return count;
        }
        count += 1;
    }
    count
}

/// A line of each of two texts, by its number from 1.
#[derive(Clone, Copy)]
struct Pair {
    old: usize,
    new: usize,
}

/// Returns whether two texts have these lines, and they are the same.
#[inline(never)]
fn is_common(old: &[&str], new: &[&str], pair: Pair) -> bool {
    match (old.get(pair.old - 1), new.get(pair.new - 1)) {
        (Some(line), Some(other)) => *line == *other,
        _ => false,
    }
}

/// Returns the first line that the starts of two texts have in common, in order of the sum of its
/// numbers, which are at most eight.
#[inline(never)]
fn next_common(old: &[&str], new: &[&str]) -> Option<Pair> {
    for sum in 2..=WINDOW + WINDOW {
        for number in 1..=WINDOW {
            if number >= sum {
                break;
            }
            let pair = Pair {
                old: number,
                new: sum - number,
            };
            if pair.new <= WINDOW && is_common(old, new, pair) {
                return Some(pair);
            }
        }
    }
    None
}

/// Appends a line that is on this side.
#[inline]
fn push_line<'a>(rows: &mut Vec<Row<'a>>, side: Side, line: &'a str) -> Result<(), AllocError> {
    rows.push(Row { side, line });
    Ok(())
}

/// Appends lines that are on this side.
fn push_lines<'a>(
    rows: &mut Vec<Row<'a>>,
    side: Side,
    lines: &[&'a str],
) -> Result<(), AllocError> {
    for line in lines {
        push_line(rows, side, *line)?;
    }
    Ok(())
}

/// Returns the first n items, or all if there are no more.
#[inline]
pub fn front<T>(items: &[T], n: usize) -> &[T] {
    items.get(..n).unwrap_or(items)
}

/// Returns the items after the first n, or none if there are no more.
pub fn rest_after<T>(items: &[T], n: usize) -> &[T] {
    items.get(n..).unwrap_or(&items[items.len()..])
}

/// Appends the lines of two texts up to one that they have in common.
#[inline(never)]
fn push_pair<'a>(
    rows: &mut Vec<Row<'a>>,
    old: &[&'a str],
    new: &[&'a str],
    pair: Pair,
) -> Result<(), AllocError> {
    push_lines(rows, Side::Old, front(old, pair.old - 1))?;
    push_lines(rows, Side::New, front(new, pair.new - 1))?;
    if let Some(line) = old.get(pair.old - 1) {
        push_line(rows, Side::Both, *line)?;
    }
    Ok(())
}

/// Appends the lines of two texts without a common end beside each other.
#[inline(never)]
fn push_middle<'a>(
    rows: &mut Vec<Row<'a>>,
    old: &[&'a str],
    new: &[&'a str],
) -> Result<(), AllocError> {
    let mut old_lines = old;
    let mut new_lines = new;
    while let Some(pair) = next_common(old_lines, new_lines) {
        push_pair(rows, old_lines, new_lines, pair)?;
        old_lines = rest_after(old_lines, pair.old);
        new_lines = rest_after(new_lines, pair.new);
    }
    push_lines(rows, Side::Old, old_lines)?;
    push_lines(rows, Side::New, new_lines)?;
    Ok(())
}

/// Returns the lines of two texts beside each other: those that are not in the new one alone are
/// the old text, and those that are not in the old one alone the new text.
#[inline(never)]
pub fn rows_of<'a>(old: &'a str, new: &'a str) -> Result<Vec<Row<'a>>, AllocError> {
    let old_lines = lines_of(old)?;
    let new_lines = lines_of(new)?;
    let lines = old_lines.as_slice();
    let others = new_lines.as_slice();
    let end = common_end(lines, others);
    let mut rows = Vec::new();
    let (old_len, new_len) = (lines.len() - end, others.len() - end);
    push_middle(&mut rows, front(lines, old_len), front(others, new_len))?;
    push_lines(&mut rows, Side::Both, rest_after(lines, old_len))?;
    Ok(rows)
}
