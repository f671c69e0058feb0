//! Which columns of the lines are drawn.

// Extracted from crates/drawn_labels/src/margin.rt by tools/extract: not to be edited.
// That source has the contracts, and is proved. That this text means the same is only tested.

use crate::proved::drawn_labels::labels::{mark_of, Label};
use crate::proved::drawn_labels::mark::Mark;
use crate::proved::drawn_lines::{columns, line, Gutter, Picture, Window};

/// Where labels are.
#[derive(Clone, Copy)]
pub struct Reach {
    /// The first column of a label.
    pub start: usize,
    /// The first column after all labels.
    pub end: usize,
    /// The first column after their texts.
    pub text_end: usize,
    /// How many columns the longest one of their lines has.
    pub longest: usize,
}

/// The most columns that the text of a label is counted for.
const MAX_TEXT_LEN: usize = 1 << (usize::BITS - 4);

/// Returns how many columns the text of a label with this sign is counted for, with the space in
/// front of it: that of a primary label counts only if there is one.
fn text_columns(sign: char, text: &str) -> usize {
    if sign == '^' && text.is_empty() {
        0
    } else {
        1 + text.len().min(MAX_TEXT_LEN)
    }
}

/// Returns how many columns a line of the source has.
#[inline]
fn line_columns(source: &str, number: usize) -> usize {
    columns(line(source, number))
}

/// A line of the source, and how many columns it has.
#[derive(Clone, Copy)]
struct MeasuredLine {
    line: usize,
    columns: usize,
}

/// Returns the line in which a label begins, and its columns.
fn start_line(source: &str, label: &Label<'_>) -> MeasuredLine {
    let line = label.extent.start.line;
    MeasuredLine {
        line,
        columns: line_columns(source, line),
    }
}

/// Returns how many columns a line of the source has. Most often it is the line `known_line`.
fn columns_of(source: &str, number: usize, known_line: MeasuredLine) -> usize {
    if number == known_line.line {
        known_line.columns
    } else {
        line_columns(source, number)
    }
}

/// Returns the reach of a label in one line.
fn mark_reach(source: &str, known_line: MeasuredLine, mark: &Mark<'_>) -> Reach {
    Reach {
        start: mark.start,
        end: mark.end,
        text_end: mark.end + text_columns(mark.sign, mark.text),
        longest: columns_of(source, mark.line, known_line),
    }
}

/// Returns two reaches as one.
fn join_reaches(r: Reach, s: Reach) -> Reach {
    Reach {
        start: r.start.min(s.start),
        end: r.end.max(s.end),
        text_end: r.text_end.max(s.text_end),
        longest: r.longest.max(s.longest),
    }
}

/// Returns whether a label has more than one line.
#[inline]
fn is_long(label: &Label<'_>) -> bool {
    label.extent.start.line != label.extent.end.line
}

/// Returns the reach of a label over several lines.
fn long_reach(source: &str, label: &Label<'_>) -> Reach {
    let start = label.extent.start;
    let end = label.extent.end;
    let first_column = if end.line > start.line + 1 {
        0
    } else {
        start.column.min(end.column.saturating_sub(1))
    };
    let first = line_columns(source, start.line);
    Reach {
        start: first_column,
        end: end.column.max(start.column + 1),
        text_end: (end.column + text_columns(label.sign, label.text)).max(start.column + 1),
        longest: first.max(line_columns(source, end.line)),
    }
}

/// Returns the reach of a label in the line in which it begins.
#[inline]
fn short_reach(source: &str, known_line: MeasuredLine, label: &Label<'_>) -> Reach {
    mark_reach(source, known_line, &mark_of(label, 0))
}

/// Returns the reach of labels, each in the line in which it begins, and of `first`.
fn reach_on(source: &str, known_line: MeasuredLine, first: Reach, labels: &[Label<'_>]) -> Reach {
    let mut reach = first;
    for label in labels {
        reach = join_reaches(reach, short_reach(source, known_line, label));
    }
    reach
}

/// Returns the reach of labels.
fn reach_of(source: &str, labels: &[Label<'_>]) -> Reach {
    match labels {
        [] => Reach {
            start: 0,
            end: 0,
            text_end: 0,
            longest: 0,
        },
        [label] => {
            if is_long(label) {
                long_reach(source, label)
            } else {
                short_reach(source, start_line(source, label), label)
            }
        }
        [label, rest @ ..] => {
            let known_line = start_line(source, label);
            reach_on(
                source,
                known_line,
                short_reach(source, known_line, label),
                rest,
            )
        }
    }
}

/// Returns how many columns are left beside what is in front of a line of the source.
fn room(columns: usize, labels: &[Label<'_>]) -> usize {
    match labels {
        [label] => columns.saturating_sub(if is_long(label) { 5 } else { 3 }),
        _ => columns.saturating_sub(3),
    }
}

/// Returns how many columns are cut of lines with an indent.
#[inline]
fn cut_of(indent: usize) -> usize {
    if indent > 26 {
        indent - 22
    } else {
        0
    }
}

/// Returns the window that begins after `start` columns.
#[inline]
fn window_at(start: usize, columns: usize) -> Window {
    Window {
        start,
        room: columns,
        limit: columns,
    }
}

/// Returns the window around labels, of lines that do not fit into `room` columns.
fn window_around(room: usize, indent: usize, reach: Reach) -> Window {
    let start = reach.start.saturating_sub(6);
    let texts = (reach.text_end + 6).saturating_sub(start);
    let labels = (reach.end + 6).saturating_sub(start);
    let indent_start = indent.saturating_sub(6);
    if (reach.text_end + 6).saturating_sub(indent_start) <= room {
        window_at(indent_start, room)
    } else if texts <= room {
        window_at(start.saturating_sub((room - texts) / 2), room)
    } else if labels <= room {
        window_at(start.saturating_sub((room - labels) / 5 * 2), room)
    } else {
        window_at(start, labels)
    }
}

/// Returns the window of so much room for lines with labels of a reach and an indent.
fn window(room: usize, indent: usize, reach: Reach) -> Window {
    let start = cut_of(indent);
    let limit = reach.longest.saturating_sub(start);
    if limit > room {
        return window_around(room, indent, reach);
    }
    Window { start, room, limit }
}

/// Returns the window for labels, of lines with this indent.
pub fn window_of(
    picture: &Picture<'_>,
    gutter: Gutter,
    indent: usize,
    labels: &[Label<'_>],
) -> Window {
    let columns = picture.width.saturating_sub(gutter.columns);
    window(
        room(columns, labels),
        indent,
        reach_of(picture.source, labels),
    )
}
