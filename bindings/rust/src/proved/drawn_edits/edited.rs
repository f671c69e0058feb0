//! Texts with edits, line by line. Functions that return a `Result` return `Err` if an allocation
//! fails.

// Extracted from crates/drawn_edits/src/edited.rt by tools/extract: not to be edited.
// That source has the contracts, and is proved. That this text means the same is only tested.

use crate::proved::drawn_lines::{
    extent_of, offsets, rank, split_first, split_line, Extent, Picture, Style,
};
use crate::shim::alloc::AllocError;
use crate::shim::prelude::*;
use core::mem;
use core::ops::Range;

/// An edit that is drawn with its lines.
#[derive(Clone, Copy)]
pub struct Edit<'a> {
    /// The new text.
    pub text: &'a str,
    /// Where the text is that it replaces.
    pub extent: Extent,
    /// The byte offset in the source at which that text begins.
    pub start: usize,
    /// The byte offset in the source at which it ends.
    pub end: usize,
}

/// Returns an edit with its place in the source.
pub fn placed_edit<'a>(picture: &Picture<'_>, text: &'a str, range: &Range<usize>) -> Edit<'a> {
    let (start, end) = offsets(picture, range);
    Edit {
        text,
        extent: extent_of(picture, range),
        start,
        end,
    }
}

/// A part of a line.
#[derive(Clone, Copy)]
pub struct Part<'a> {
    /// Whether it stays, is removed or is added.
    pub style: Style,
    /// Its text.
    pub text: &'a str,
}

/// A line.
pub struct Line<'a> {
    /// Its parts, from left to right.
    pub parts: Vec<Part<'a>>,
}

/// Returns the first characters of a text, as many as end within `width` bytes, and what is after
/// them.
#[inline(never)]
pub fn split_within(text: &str, width: usize) -> (&str, &str) {
    let mut rest = text;
    let mut countdown = width;
    while let Some((c, tail)) = split_first(rest) {
        if countdown < c.len_utf8() {
            break;
        }
        countdown -= c.len_utf8();
        rest = tail;
    }
    text.split_at(text.len() - rest.len())
}

/// Returns the parts of a text at the byte offset `start` of the source, from its first line to the
/// end of the line in which the last edit ends.
#[inline(never)]
pub fn parts_of<'a>(
    start: usize,
    text: &'a str,
    edits: &[Edit<'a>],
) -> Result<Vec<Part<'a>>, AllocError> {
    let mut list = Vec::new();
    let mut at = start;
    let mut rest = text;
    for edit in edits {
        let from = edit.start.max(at);
        let to = edit.end.max(from);
        let (front_text, rest_after) = split_within(rest, from - at);
        let (removed_text, rest_after) = split_within(rest_after, to - from);
        list.push(Part {
            style: Style::Plain,
            text: front_text,
        });
        list.push(Part {
            style: Style::Removal,
            text: removed_text,
        });
        list.push(Part {
            style: Style::Addition,
            text: edit.text,
        });
        rest = rest_after;
        at = to;
    }
    let (line, _) = split_line(rest);
    list.push(Part {
        style: Style::Plain,
        text: line,
    });
    Ok(list)
}

/// Adds a part of a line, and ends the line.
fn end_line<'a>(
    lines: &mut Vec<Line<'a>>,
    row: &mut Vec<Part<'a>>,
    part: Part<'a>,
) -> Result<(), AllocError> {
    row.push(part);
    let parts = mem::replace(row, Vec::new());
    lines.push(Line { parts });
    Ok(())
}

/// Returns the first line of a text and the text after it, or `None` if the text has one line.
#[inline]
fn split_feed(text: &str) -> Option<(&str, &str)> {
    text.split_once('\n')
}

/// Adds a text of a style after lines.
#[inline(never)]
fn push_text<'a>(
    lines: &mut Vec<Line<'a>>,
    row: &mut Vec<Part<'a>>,
    style: Style,
    text: &'a str,
) -> Result<(), AllocError> {
    let mut rest = text;
    while let Some((line, rest_after)) = split_feed(rest) {
        end_line(lines, row, Part { style, text: line })?;
        rest = rest_after;
    }
    row.push(Part { style, text: rest });
    Ok(())
}

/// Adds parts after lines, but for those of the style `style`.
#[inline(never)]
fn push_parts<'a>(
    lines: &mut Vec<Line<'a>>,
    row: &mut Vec<Part<'a>>,
    style: Style,
    parts: &[Part<'a>],
) -> Result<(), AllocError> {
    for part in parts {
        if rank(part.style) != rank(style) {
            push_text(lines, row, part.style, part.text)?;
        }
    }
    Ok(())
}

/// Returns whether parts have no text.
fn have_no_text(parts: &[Part<'_>]) -> bool {
    for part in parts {
        if !part.text.is_empty() {
            return false;
        }
    }
    true
}

/// Returns how many of lines there are up to the last one with a text.
#[inline(never)]
fn count_to_text(lines: &[Line<'_>]) -> usize {
    let mut count = 0;
    for (index, line) in lines.iter().enumerate() {
        if !have_no_text(&line.parts) {
            count = index + 1;
        }
    }
    count
}

/// Adds the lines of parts without what they remove. Leaves out what is after the last edit if the
/// text of that edit ends a line.
#[inline(never)]
fn push_new_part<'a>(
    lines: &mut Vec<Line<'a>>,
    row: &mut Vec<Part<'a>>,
    parts: &[Part<'a>],
) -> Result<(), AllocError> {
    let (front, rest) = parts.split_at(parts.len().saturating_sub(1));
    push_parts(lines, row, Style::Removal, front)?;
    if have_no_text(row) && !lines.is_empty() {
        return Ok(());
    }
    push_parts(lines, row, Style::Removal, rest)?;
    Ok(())
}

/// Returns the new lines of parts, without those at their end that have no text.
#[inline(never)]
pub fn new_lines<'a>(parts: &[Part<'a>]) -> Result<Vec<Line<'a>>, AllocError> {
    let mut lines = Vec::new();
    let mut row = Vec::new();
    push_new_part(&mut lines, &mut row, parts)?;
    lines.push(Line { parts: row });
    let count = count_to_text(&lines);
    lines.truncate(count);
    Ok(lines)
}

/// Returns the lines of parts without what they add.
#[inline(never)]
pub fn old_lines<'a>(parts: &[Part<'a>]) -> Result<Vec<Line<'a>>, AllocError> {
    let mut lines = Vec::new();
    let mut row = Vec::new();
    push_parts(&mut lines, &mut row, Style::Addition, parts)?;
    lines.push(Line { parts: row });
    Ok(lines)
}

/// Returns whether parts are white space.
pub fn are_blank(parts: &[Part<'_>]) -> bool {
    for part in parts {
        if !part.text.trim().is_empty() {
            return false;
        }
    }
    true
}

/// Returns whether a part is an addition.
#[inline]
pub fn is_added(part: &Part<'_>) -> bool {
    matches!(part.style, Style::Addition)
}

/// Returns whether one of parts is an addition.
#[inline]
pub fn have_addition(parts: &[Part<'_>]) -> bool {
    for part in parts {
        if is_added(part) {
            return true;
        }
    }
    false
}

/// Returns whether edits remove something that is no white space.
pub fn do_remove(parts: &[Part<'_>]) -> bool {
    for part in parts {
        if matches!(part.style, Style::Removal) && !part.text.trim().is_empty() {
            return true;
        }
    }
    false
}

/// Adds the text of parts.
fn put_text(out: &mut String, parts: &[Part<'_>]) -> Result<(), AllocError> {
    for part in parts {
        out.push_str(part.text);
    }
    Ok(())
}

/// Returns the text of lines.
fn text_of(lines: &[Line<'_>]) -> Result<String, AllocError> {
    let mut text = String::new();
    for line in lines {
        put_text(&mut text, &line.parts)?;
    }
    Ok(text)
}

/// Returns whether the text of the last old line is that of the only new one.
#[inline(never)]
pub fn is_same_end(old: &[Line<'_>], new: &[Line<'_>]) -> Result<bool, AllocError> {
    let [line, ..] = new else {
        return Ok(false);
    };
    let (_, last) = old.split_at(old.len().saturating_sub(1));
    let old_text = text_of(last)?;
    let mut new_text = String::new();
    put_text(&mut new_text, &line.parts)?;
    Ok(old_text.as_str() == new_text.as_str())
}
