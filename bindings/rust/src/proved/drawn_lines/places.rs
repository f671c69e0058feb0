//! The source around a literal, its lines and places.

// Extracted from crates/drawn_lines/src/places.rt by tools/extract: not to be edited.
// That source has the contracts, and is proved. That this text means the same is only tested.

use crate::proved::drawn_lines::extent::{Extent, Spot};
use crate::proved::drawn_lines::glyphs::{split_first, width};
use crate::proved::drawn_lines::printable::split_printable;
use core::ops::Range;

/// The source that a fault is drawn in: a whole file, or those lines of it that have the literal.
#[derive(Clone, Copy, Debug)]
pub struct Picture<'a> {
    /// The path of the file, as it is to be shown.
    pub path: &'a str,
    /// The source. Its lines end in line feeds.
    pub source: &'a str,
    /// The number of the first line of `source`.
    pub line_start: u32,
    /// The byte offset in `source` at which the literal begins.
    pub literal_start: usize,
    /// How many columns a row has with the number of its line, as rustc's `--diagnostic-width` says
    /// it. Longer lines are cut, but for those of a suggestion. [`WIDTH`] is rustc's default.
    pub width: usize,
    /// Whether the drawing has colours, as rustc gives them to a terminal.
    pub colours: bool,
}

/// How many columns a row has if nothing else is said.
pub const WIDTH: usize = 140;

/// The place at the start of a text.
pub const ORIGIN: Spot = Spot {
    line: 0,
    chars: 0,
    column: 0,
    is_indent: true,
};

/// Returns the place after a character.
fn spot_past(spot: Spot, c: char) -> Spot {
    if c == '\n' {
        return Spot {
            line: spot.line + 1,
            chars: 0,
            column: 0,
            is_indent: true,
        };
    }
    Spot {
        line: spot.line,
        chars: spot.chars + 1,
        column: spot.column + width(c),
        is_indent: spot.is_indent && c.is_whitespace(),
    }
}

/// Returns the place after printable characters.
fn past_printable(spot: Spot, front: &str) -> Spot {
    Spot {
        line: spot.line,
        chars: spot.chars + front.len(),
        column: spot.column + front.len(),
        is_indent: false,
    }
}

/// A text after some characters were passed.
#[derive(Clone, Copy)]
struct Rest<'a> {
    /// The place after these characters.
    spot: Spot,
    /// What is left of the text.
    text: &'a str,
    /// How many bytes are left to pass.
    width: usize,
}

/// Passes the printable characters at the start of a text that end within `width` bytes.
fn pass_printable(start: Spot, text: &str, width: usize) -> Rest<'_> {
    let (front, rest) = split_printable(text, width);
    Rest {
        spot: past_printable(start, front),
        text: rest,
        width: width - front.len(),
    }
}

/// Passes the characters of a text that end within `width` bytes.
fn pass(start: Spot, text: &str, width: usize) -> Rest<'_> {
    let mut at = start;
    let mut rest = text;
    let mut countdown = width;
    while let Some((c, tail)) = split_first(rest) {
        if countdown < c.len_utf8() {
            break;
        }
        countdown -= c.len_utf8();
        at = spot_past(at, c);
        rest = tail;
        if !at.is_indent {
            let next = pass_printable(at, rest, countdown);
            at = next.spot;
            rest = next.text;
            countdown = next.width;
        }
    }
    Rest {
        spot: at,
        text: rest,
        width: countdown,
    }
}

/// Returns the first line of a text, and the rest of the text after that line.
pub fn split_line(text: &str) -> (&str, &str) {
    match text.split_once('\n') {
        Some((line, rest)) => (line, rest),
        None => (text, ""),
    }
}

/// Returns the rest of a text after its first lines.
pub fn after_lines(text: &str, count: usize) -> &str {
    let mut rest = text;
    let mut countdown = count;
    while countdown > 0 {
        let (_, rest_after) = split_line(rest);
        rest = rest_after;
        countdown -= 1;
    }
    rest
}

/// Returns the line with a number, counted from 0, or an empty text after the last one.
#[inline]
pub fn line(text: &str, number: usize) -> &str {
    let (first, _) = split_line(after_lines(text, number));
    first
}

/// Returns the byte offsets in the source at which a range of the literal begins and ends.
pub fn offsets(picture: &Picture<'_>, range: &Range<usize>) -> (usize, usize) {
    let length = picture.source.len();
    let from = picture
        .literal_start
        .saturating_add(range.start)
        .min(length);
    let to = picture.literal_start.saturating_add(range.end).min(length);
    (from, to.max(from))
}

/// Returns where a range of the literal begins and ends.
pub fn extent_of(picture: &Picture<'_>, range: &Range<usize>) -> Extent {
    let (from, to) = offsets(picture, range);
    let start_rest = pass(ORIGIN, picture.source, from);
    let end_rest = pass(
        start_rest.spot,
        start_rest.text,
        start_rest.width + (to - from),
    );
    Extent {
        start: start_rest.spot,
        end: end_rest.spot,
    }
}
