//! The layout of a picture.

// Extracted from crates/drawn_lines/src/frame.rt by tools/extract: not to be edited.
// That source has the contracts, and is proved. That this text means the same is only tested.

use crate::proved::drawn_lines::glyphs::indent;
use crate::proved::drawn_lines::paint::Gutter;
use crate::proved::drawn_lines::places::{after_lines, Picture};
use crate::proved::drawn_lines::window::Window;

/// How a picture is laid out.
#[derive(Clone, Copy)]
pub struct Frame<'a> {
    /// The source.
    pub picture: &'a Picture<'a>,
    /// The columns of the numbers of the lines, and the colours.
    pub gutter: Gutter,
    /// Which columns of the lines are drawn.
    pub window: Window,
}

/// Returns the indent of a line of the source, unless it is blank.
#[inline]
pub fn line_indent(picture: &Picture<'_>, number: usize) -> Option<usize> {
    indent(after_lines(picture.source, number))
}

/// Returns the number of digits of a number.
pub fn digits(number: usize) -> usize {
    let mut rest = number;
    let mut count = 1;
    while rest >= 10 {
        rest /= 10;
        count += 1;
    }
    count
}
