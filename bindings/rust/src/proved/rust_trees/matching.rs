//! The partner of each delimiter, and the place where the tokens break if they are no forest.

// Extracted from crates/rust_trees/src/matching.rt by tools/extract: not to be edited.
// That source has the contracts, and is proved. That this text means the same is only tested.

use crate::proved::rust_trees::leaves::Token;
use crate::proved::rust_trees::sides::{is_same, Delimiter, Side};
use crate::shim::alloc::AllocError;
use crate::shim::prelude::*;

/// The place where tokens that are no forest break: the index of a token.
#[derive(Clone, Copy)]
pub enum DelimiterBreak {
    /// A delimiter that is not closed: the last of these.
    Unclosed(usize),
    /// A closing delimiter where nothing is to be closed, or a delimiter of another kind is.
    Unexpected(usize),
}

/// A delimiter that is not closed yet.
#[derive(Clone, Copy)]
pub struct Opening {
    /// The position of the token: its index, or the byte offset at which it starts.
    pub position: usize,
    /// The kind.
    pub delimiter: Delimiter,
}

/// The pairs of delimiters in the tokens so far.
pub struct Matching {
    /// The index of the partner of each token.
    pub partners: Vec<Option<usize>>,
    /// The delimiters that may still be closed.
    pub openings: Vec<Opening>,
    /// The first closing delimiter that nothing allows.
    pub unexpected_index: Option<usize>,
}

/// Adds a closing delimiter.
#[inline]
fn close(matching: &mut Matching, delimiter: Delimiter) -> Result<(), AllocError> {
    let index = matching.partners.len();
    if let Some(top) = matching.openings.pop() {
        if is_same(top.delimiter, delimiter) {
            matching.partners[top.position] = Some(index);
            matching.partners.push(Some(top.position));
            return Ok(());
        }
    }
    matching.openings.clear();
    matching.unexpected_index = matching.unexpected_index.or(Some(index));
    matching.partners.push(None);
    Ok(())
}

/// Adds a token.
#[inline]
pub fn add(matching: &mut Matching, token: &Token<'_>) -> Result<(), AllocError> {
    match token.side() {
        Side::Neither => matching.partners.push(None),
        Side::Opens(delimiter) => {
            let position = matching.partners.len();
            matching.openings.push(Opening {
                position,
                delimiter,
            });
            matching.partners.push(None);
        }
        Side::Closes(delimiter) => close(matching, delimiter)?,
    }
    Ok(())
}

/// Returns whether no delimiter may still be closed.
#[inline]
pub fn is_closed(matching: &Matching) -> bool {
    matching.openings.is_empty()
}

/// Returns the pairs of delimiters in these tokens.
#[inline]
pub fn match_delimiters(tokens: &[Token<'_>]) -> Result<Matching, AllocError> {
    let mut matching = Matching {
        partners: Vec::new(),
        openings: Vec::new(),
        unexpected_index: None,
    };
    for token in tokens {
        add(&mut matching, token)?;
    }
    Ok(matching)
}

/// Returns where the tokens break, or `None` if they are a forest.
#[inline]
pub fn break_of(
    unexpected_index: Option<usize>,
    mut openings: Vec<Opening>,
) -> Option<DelimiterBreak> {
    match unexpected_index {
        Some(index) => Some(DelimiterBreak::Unexpected(index)),
        None => match openings.pop() {
            Some(opening) => Some(DelimiterBreak::Unclosed(opening.position)),
            None => None,
        },
    }
}
