//! The variables that arguments are.

// Extracted from crates/inlined_arguments/src/variables.rt by tools/extract: not to be edited.
// That source has the contracts, and is proved. That this text means the same is only tested.

use crate::proved::inlined_arguments::call::Argument;
use crate::proved::inlined_arguments::keywords::is_keyword;
use crate::shim::alloc::AllocError;
use crate::shim::prelude::*;

/// The first character that normalization may change or join with the one before it.
const FIRST_MARK: char = '\u{300}';

/// Returns the first character and what is after it, or `None` if the text is empty.
pub(crate) fn split_first(text: &str) -> Option<(char, &str)> {
    let mut rest = text.chars();
    let c = rest.next()?;
    Some((c, rest.as_str()))
}

/// Returns whether a name is written in a format string as it is in other source.
fn is_plain(name: &str) -> bool {
    let mut rest = name;
    while let Some((c, tail)) = split_first(rest) {
        if c >= FIRST_MARK {
            return false;
        }
        rest = tail;
    }
    true
}

/// Returns the variable of this name, or `None` if it cannot be in a format string.
#[inline]
fn named_in(name: &str) -> Option<&str> {
    if is_plain(name) {
        Some(name)
    } else {
        None
    }
}

/// Returns the name of a raw identifier, or `None` if a word is none.
#[inline(never)]
fn raw_name(word: &str) -> Option<&str> {
    let Some(('r', rest)) = split_first(word) else {
        return None;
    };
    match split_first(rest) {
        Some(('#', name)) => Some(name),
        _ => None,
    }
}

/// Returns the name of the variable that a word is, or `None` if it is none that can be in a format
/// string.
fn variable_of(word: &str) -> Option<&str> {
    match raw_name(word) {
        Some(name) => named_in(name),
        None => {
            if is_keyword(word) {
                None
            } else {
                named_in(word)
            }
        }
    }
}

/// Returns the name of the variable that an argument is, or `None` if it is none that can be in a
/// format string.
pub(crate) fn variable<'a>(argument: &Argument<'a>) -> Option<&'a str> {
    match argument.word {
        None => None,
        Some(word) => variable_of(word),
    }
}

/// Returns whether an argument is a variable that can be in a format string.
#[inline]
pub(crate) fn is_variable(argument: &Argument<'_>) -> bool {
    variable(argument).is_some()
}

/// Returns whether one of bytes is a slash.
#[inline]
fn has_slash(bytes: &[u8]) -> bool {
    for byte in bytes {
        if *byte == b'/' {
            return true;
        }
    }
    false
}

/// Returns whether a comment would go with an argument that is a variable.
#[inline]
pub(crate) fn has_comment(argument: &Argument<'_>) -> bool {
    has_slash(argument.source)
}

/// Returns the indices of the arguments that are variables.
#[inline(never)]
pub(crate) fn variable_indices(arguments: &[Argument<'_>]) -> Result<Vec<usize>, AllocError> {
    let mut removed_indices = Vec::new();
    for (index, argument) in arguments.iter().enumerate() {
        if is_variable(argument) {
            removed_indices.push(index);
        }
    }
    Ok(removed_indices)
}
