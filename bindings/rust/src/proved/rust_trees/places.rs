//! Places in a text as an editor shows them.

// Extracted from crates/rust_trees/src/places.rt by tools/extract: not to be edited.
// That source has the contracts, and is proved. That this text means the same is only tested.

use crate::proved::rust_tokens::split_first;
use crate::shim::alloc::AllocError;
use crate::shim::prelude::*;

/// A line and a column of a text, both from 1. An LF ends a line, and a column counts characters,
/// but no CR before an LF and no byte order mark at the start.
#[derive(Clone, Copy, Debug, Eq, PartialEq)]
pub struct Place {
    /// The line.
    pub line: usize,
    /// The column.
    pub column: usize,
}

/// Returns whether an LF is the next character of two texts, one after the other.
#[inline]
fn is_lf_next(text: &str, back: &str) -> bool {
    match split_first(text) {
        Some((c, _)) => c == '\n',
        None => match split_first(back) {
            Some((c, _)) => c == '\n',
            None => false,
        },
    }
}

/// Returns the place after a character at this place, where an LF may follow.
#[inline]
fn after_char(place: Place, c: char, is_before_lf: bool) -> Place {
    if c == '\n' {
        Place {
            line: place.line + 1,
            column: 1,
        }
    } else if c == '\r' && is_before_lf {
        place
    } else {
        Place {
            line: place.line,
            column: place.column + 1,
        }
    }
}

/// Returns the place after a text at this place, where another text follows.
#[inline]
pub fn place_after(place: Place, front: &str, back: &str) -> Place {
    let mut current_place = place;
    let mut rest = front;
    while let Some((c, more)) = split_first(rest) {
        current_place = after_char(current_place, c, is_lf_next(more, back));
        rest = more;
    }
    current_place
}

/// Returns the text without the byte order mark at its start.
#[inline]
fn without_mark(text: &str) -> &str {
    match split_first(text) {
        Some(('\u{feff}', rest)) => rest,
        _ => text,
    }
}

/// Returns the place of a byte offset at which a character of the text starts, or at its end.
#[inline]
pub fn place_at(text: &str, offset: usize) -> Place {
    let (front, back) = text.split_at(offset);
    place_after(Place { line: 1, column: 1 }, without_mark(front), back)
}

/// The number of bytes between two places of a text that are known.
const STEP: usize = 256;

/// A byte offset of a text with its place.
#[derive(Clone, Copy)]
pub struct KnownPlace {
    pub offset: usize,
    pub place: Place,
}

/// Returns the place of a byte offset, from the last place before it of those that are known.
#[inline]
fn place_from(text: &str, known_places: &[KnownPlace], offset: usize) -> Place {
    let count = known_places.len().min(offset / STEP);
    if count > 0 {
        let last = known_places[count - 1];
        if last.offset <= offset {
            return place_after(last.place, &text[last.offset..offset], &text[offset..]);
        }
    }
    place_at(text, offset)
}

/// Adds a byte offset with its place to those that are known, unless it is 0.
#[inline]
fn add_known(
    known_places: &mut Vec<KnownPlace>,
    text: &str,
    offset: usize,
) -> Result<(), AllocError> {
    if offset == 0 {
        return Ok(());
    }
    let place = place_from(text, known_places, offset);
    known_places.push(KnownPlace { offset, place });
    Ok(())
}

/// A text in which a place is found in a time that does not grow with the text.
pub struct Places<'a> {
    text: &'a str,
    known_places: Vec<KnownPlace>,
}

impl<'a> Places<'a> {
    /// Reads a text.
    #[inline]
    pub(crate) fn new(text: &'a str) -> Result<Self, AllocError> {
        let mut known_places = Vec::new();
        for step in 1..=text.len() / STEP {
            add_known(&mut known_places, text, text.boundary_at_most(step * STEP))?;
        }
        Ok(Places { text, known_places })
    }

    /// Returns the place of a byte offset at which a character of the text starts, or at its end.
    #[inline]
    pub fn place_of(&self, offset: usize) -> Place {
        place_from(self.text, &self.known_places, offset)
    }
}
