//! The parameters of a trait that are types or constants.

// Extracted from crates/call_forms/src/generics.rt by tools/extract: not to be edited.
// That source has the contracts, and is proved. That this text means the same is only tested.

use crate::proved::format_calls::{is_mark, is_mark_of, is_text, is_word};
use crate::proved::rust_trees::{is_opening, Side, Token};
use crate::shim::alloc::AllocError;
use crate::shim::prelude::*;

/// Where a token of a list of parameters is.
#[derive(Clone, Copy)]
pub struct Place {
    /// How many angles are open.
    pub angles: usize,
    /// How many delimiters are open.
    pub open_delimiters: usize,
    /// Whether a parameter may begin.
    pub is_first: bool,
    /// Whether `-` stands before it.
    pub is_arrow: bool,
}

/// Returns whether a token is the name of a parameter, where one may stand.
fn names(place: Place, token: &Token<'_>) -> bool {
    place.open_delimiters == 0 && place.is_first && is_word(token) && !is_text(token, "const")
}

/// Returns how many angles are open after a token outside of delimiters.
fn angles_after(place: Place, token: &Token<'_>) -> usize {
    if is_mark_of(token, b'<') {
        place.angles + 1
    } else if is_mark_of(token, b'>') && !place.is_arrow {
        place.angles.saturating_sub(1)
    } else {
        place.angles
    }
}

/// Returns whether a parameter may begin after a token outside of delimiters.
fn first_after(place: Place, token: &Token<'_>) -> bool {
    place.angles == 1 && is_mark_of(token, b',') || place.is_first && !names(place, token)
}

/// Returns the place after a token outside of delimiters, which is none itself.
fn plain_after(place: Place, token: &Token<'_>) -> Place {
    Place {
        angles: angles_after(place, token),
        open_delimiters: 0,
        is_first: first_after(place, token),
        is_arrow: is_mark_of(token, b'-'),
    }
}

/// Returns a place with this many open delimiters.
fn with_delimiters(place: Place, open_delimiters: usize) -> Place {
    Place {
        angles: place.angles,
        open_delimiters,
        is_first: place.is_first,
        is_arrow: false,
    }
}

/// Returns the place where a list has ended.
fn end_place() -> Place {
    Place {
        angles: 0,
        open_delimiters: 0,
        is_first: false,
        is_arrow: false,
    }
}

/// Returns the place after a token of a list, which ends at the latest before another trait.
fn place_after(place: Place, token: &Token<'_>) -> Place {
    if is_text(token, "trait") {
        return end_place();
    }
    if is_opening(token.side()) {
        return with_delimiters(place, place.open_delimiters + 1);
    }
    if matches!(token.side(), Side::Closes(_)) {
        if place.open_delimiters == 0 {
            return end_place();
        }
        return with_delimiters(place, place.open_delimiters - 1);
    }
    if place.open_delimiters == 0 {
        plain_after(place, token)
    } else {
        with_delimiters(place, place.open_delimiters)
    }
}

/// Adds the name of the parameter that a token is, if it is one.
fn put_parameter<'a>(
    list: &mut Vec<&'a str>,
    place: Place,
    token: &Token<'a>,
) -> Result<(), AllocError> {
    if names(place, token) {
        list.push(token.text);
    }
    Ok(())
}

/// Returns the names of the parameters whose list opens with the token of an index, or none if no
/// list does.
pub fn parameters<'a>(tokens: &[Token<'a>], index: usize) -> Result<Vec<&'a str>, AllocError> {
    let mut names = Vec::new();
    if !is_mark(tokens, index, b'<') {
        return Ok(names);
    }
    let mut place = Place {
        angles: 1,
        open_delimiters: 0,
        is_first: true,
        is_arrow: false,
    };
    for token in &tokens[index + 1..] {
        if place.angles == 0 {
            return Ok(names);
        }
        put_parameter(&mut names, place, token)?;
        place = place_after(place, token);
    }
    Ok(names)
}
