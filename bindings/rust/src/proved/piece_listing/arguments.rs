//! A list of arguments as a word: their number by position, and then names, each after a comma.

// Extracted from crates/piece_listing/src/arguments.rt by tools/extract: not to be edited.
// That source has the contracts, and is proved. That this text means the same is only tested.

use crate::shim::alloc::AllocError;
use crate::shim::prelude::*;

/// The most digits that a number may have.
const MOST_DIGITS: usize = 5;

/// A list of arguments that are given.
#[derive(Copy, Clone)]
pub struct GivenArguments<'a> {
    /// The number of arguments that are given by position.
    pub positional: usize,
    /// The names of the others, separated by commas, or `None` if there are none.
    pub names: Option<&'a str>,
}

/// Returns the text before the first comma and the text after it, or `None` if there is no comma.
#[inline]
fn around_comma(text: &str) -> Option<(&str, &str)> {
    text.split_once(',')
}

/// Returns the number that a text of at most `MOST_DIGITS` digits is, or `None` if it is no number
/// or more than 65535.
#[inline(never)]
fn number(text: &str) -> Option<usize> {
    if text.len() > MOST_DIGITS || text.starts_with('+') {
        return None;
    }
    match text.parse::<u16>() {
        Ok(number) => Some(usize::from(number)),
        Err(_) => None,
    }
}

/// Returns whether a text is a list of names that are separated by commas, none of them empty.
#[inline(never)]
fn are_names(text: &str) -> bool {
    let mut rest = text;
    while let Some((name, rest_after)) = around_comma(rest) {
        if name.is_empty() {
            return false;
        }
        rest = rest_after;
    }
    !rest.is_empty()
}

/// Returns the list of arguments that a word is, or `None` if it is none.
#[inline(never)]
pub fn given_arguments(word: &str) -> Option<GivenArguments<'_>> {
    let Some((digits, names)) = around_comma(word) else {
        let positional = number(word)?;
        return Some(GivenArguments {
            positional,
            names: None,
        });
    };
    let positional = number(digits)?;
    if !are_names(names) {
        return None;
    }
    Some(GivenArguments {
        positional,
        names: Some(names),
    })
}

/// Returns the parts of a text that are separated by commas.
#[inline(never)]
fn between_commas<'a>(text: &'a str) -> Result<Vec<&'a str>, AllocError> {
    let mut names = Vec::new();
    let mut rest = text;
    while let Some((name, rest_after)) = around_comma(rest) {
        names.push(name);
        rest = rest_after;
    }
    names.push(rest);
    Ok(names)
}

/// Returns the names of a list of arguments.
pub fn names<'a>(names: Option<&'a str>) -> Result<Vec<&'a str>, AllocError> {
    match names {
        Some(text) => between_commas(text),
        None => Ok(Vec::new()),
    }
}
