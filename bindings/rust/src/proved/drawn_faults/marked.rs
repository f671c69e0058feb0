//! Lines of the source with several labels. A function whose name begins with `put_` appends to
//! `out`.

// Extracted from crates/drawn_faults/src/marked.rt by tools/extract: not to be edited.
// That source has the contracts, and is proved. That this text means the same is only tested.

use crate::proved::drawn_edits::Edit;
use crate::proved::drawn_labels::{
    mark_in, marks_from_right, put_long_label, put_mark_rows, window_of, Label, Mark,
};
use crate::proved::drawn_lines::{
    line_indent, put_code, put_gap, Frame, Gutter, Picture, Spot, ORIGIN,
};
use crate::shim::alloc::AllocError;
use crate::shim::prelude::*;

/// Returns the last line in which one of labels ends, or `last` if that is further down.
pub fn last_label_line(last: usize, labels: &[Label<'_>]) -> usize {
    let mut line = last;
    for label in labels {
        line = line.max(label.extent.end.line);
    }
    line
}

/// Returns the last line in which one of edits ends, or `last` if that is further down.
pub fn last_edit_line(last: usize, edits: &[Edit<'_>]) -> usize {
    let mut line = last;
    for edit in edits {
        line = line.max(edit.extent.end.line);
    }
    line
}

/// Returns the lower of two indents, of which a blank line has none.
#[inline(never)]
fn lower_indent(m: Option<usize>, n: Option<usize>) -> Option<usize> {
    match (m, n) {
        (None, n) => n,
        (Some(m), None) => Some(m),
        (Some(m), Some(n)) => Some(m.min(n)),
    }
}

/// Returns the lowest indent of the lines in which labels begin and end, or `None` if these are
/// blank.
#[inline(never)]
fn lowest_of_labels(picture: &Picture<'_>, labels: &[Label<'_>]) -> Option<usize> {
    let mut least = None;
    for label in labels {
        let first = line_indent(picture, label.extent.start.line);
        let last = line_indent(picture, label.extent.end.line);
        least = lower_indent(lower_indent(least, first), last);
    }
    least
}

/// Returns the lowest indent of the lines in which labels begin and end, or 0 if these are blank.
fn lowest_indent(picture: &Picture<'_>, labels: &[Label<'_>]) -> usize {
    match lowest_of_labels(picture, labels) {
        None => 0,
        Some(indent) => indent,
    }
}

/// Returns the layout of labels.
pub fn frame_of<'a>(picture: &'a Picture<'a>, gutter: Gutter, labels: &[Label<'_>]) -> Frame<'a> {
    Frame {
        picture,
        gutter,
        window: window_of(picture, gutter, lowest_indent(picture, labels), labels),
    }
}

/// Returns whether a place is in a line above another one, or in front of it in the same line.
fn is_before(s: Spot, t: Spot) -> bool {
    s.line < t.line || (s.line == t.line && s.chars < t.chars)
}

/// Returns whether a place is in front of the one found before, if there is one.
fn is_first(first: Option<Spot>, start: Spot) -> bool {
    match first {
        None => true,
        Some(spot) => is_before(start, spot),
    }
}

/// Returns where a label begins, if it is primary and that is in front of `first`, and else
/// `first`.
fn earlier_spot(first: Option<Spot>, label: &Label<'_>) -> Option<Spot> {
    if label.sign == '^' && is_first(first, label.extent.start) {
        Some(label.extent.start)
    } else {
        first
    }
}

/// Returns the first place at which a primary one of labels begins, or the start of the source
/// without one.
pub fn first_spot(labels: &[Label<'_>]) -> Spot {
    let mut spot = None;
    for label in labels {
        spot = earlier_spot(spot, label);
    }
    spot.unwrap_or(ORIGIN)
}

/// Returns labels in the lines in which they begin, in the order in which they are drawn.
fn marks_of<'a>(frame: &Frame<'_>, labels: &[Label<'a>]) -> Result<Vec<Mark<'a>>, AllocError> {
    let mut list = Vec::new();
    for label in labels {
        list.push(mark_in(frame, label));
    }
    marks_from_right(&list)
}

/// Returns those of labels that begin in a line.
fn in_line<'a>(number: usize, marks: &[Mark<'a>]) -> Result<Vec<Mark<'a>>, AllocError> {
    let mut list = Vec::new();
    for mark in marks {
        if mark.line == number {
            list.push(*mark);
        }
    }
    Ok(list)
}

/// Adds the rows between a line that was drawn, if there is one, and the next one.
fn put_gap_after(
    out: &mut String,
    frame: &Frame<'_>,
    previous: Option<usize>,
    number: usize,
) -> Result<(), AllocError> {
    if let Some(previous) = previous {
        put_gap(out, frame, previous, number)?;
    }
    Ok(())
}

/// Adds a line and the rows under it.
#[inline(never)]
fn put_line_rows(
    out: &mut String,
    frame: &Frame<'_>,
    number: usize,
    marks: &[Mark<'_>],
) -> Result<(), AllocError> {
    put_code(out, frame, number)?;
    let marks = in_line(number, marks)?;
    put_mark_rows(out, frame.gutter, &marks)?;
    Ok(())
}

/// Returns whether a line was drawn before.
#[inline]
fn is_drawn(previous: Option<usize>, number: usize) -> bool {
    match previous {
        None => false,
        Some(line) => line == number,
    }
}

/// Adds a line with labels, unless it was drawn before.
#[inline(never)]
fn put_next_line(
    out: &mut String,
    frame: &Frame<'_>,
    previous: Option<usize>,
    number: usize,
    marks: &[Mark<'_>],
) -> Result<(), AllocError> {
    if is_drawn(previous, number) {
        return Ok(());
    }
    put_gap_after(out, frame, previous, number)?;
    put_line_rows(out, frame, number, marks)?;
    Ok(())
}

/// Adds the lines of labels, which are in the order in which they are drawn.
#[inline(never)]
fn put_marked_lines(
    out: &mut String,
    frame: &Frame<'_>,
    marks: &[Mark<'_>],
) -> Result<(), AllocError> {
    let mut previous_line = None;
    for (index, mark) in marks.iter().enumerate() {
        put_next_line(out, frame, previous_line, mark.line, &marks[index..])?;
        previous_line = Some(mark.line);
    }
    Ok(())
}

/// Adds the lines of labels, each in the line in which it begins.
fn put_each_in_line(
    out: &mut String,
    frame: &Frame<'_>,
    labels: &[Label<'_>],
) -> Result<(), AllocError> {
    let marks = marks_of(frame, labels)?;
    put_marked_lines(out, frame, &marks)?;
    Ok(())
}

/// Adds the lines of a label that is alone.
#[inline(never)]
fn put_single_label(
    out: &mut String,
    frame: &Frame<'_>,
    label: &Label<'_>,
) -> Result<(), AllocError> {
    if label.extent.start.line == label.extent.end.line {
        put_each_in_line(out, frame, &[*label])?;
    } else {
        put_long_label(out, frame, label)?;
    }
    Ok(())
}

/// Adds the lines of labels.
pub fn put_labels_rows(
    out: &mut String,
    frame: &Frame<'_>,
    labels: &[Label<'_>],
) -> Result<(), AllocError> {
    match labels {
        [label] => put_single_label(out, frame, label)?,
        _ => put_each_in_line(out, frame, labels)?,
    }
    Ok(())
}
