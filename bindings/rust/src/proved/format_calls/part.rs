//! A part of a file, whose arguments are searched for tokens.

// Extracted from crates/format_calls/src/part.rt by tools/extract: not to be edited.
// That source has the contracts, and is proved. That this text means the same is only tested.

use crate::proved::format_calls::marks::is_mark_of;
use crate::proved::format_calls::modes::is_text;
use crate::proved::format_calls::split::Argument;
use crate::proved::rust_trees::{Source, Token};
use crate::shim::alloc::AllocError;
use crate::shim::prelude::*;

/// A kind of token that arguments are searched for.
#[derive(Clone, Copy)]
pub enum Target {
    /// `$`, which begins a variable of a macro, or `#`, which does so in `quote!`.
    Variable,
    /// The word `raw`.
    Raw,
}

/// Returns whether arguments are searched for this token.
fn is_target(target: Target, token: &Token<'_>) -> bool {
    match target {
        Target::Variable => is_mark_of(token, b'$') || is_mark_of(token, b'#'),
        Target::Raw => is_text(token, "raw"),
    }
}

/// Returns whether one of these tokens is wanted.
fn has_target(tokens: &[Token<'_>], target: Target) -> bool {
    for token in tokens {
        if is_target(target, token) {
            return true;
        }
    }
    false
}

/// Returns for each number of tokens from the first one on how many of them end with the last one
/// that is wanted, or nothing if none is.
fn last_targets(tokens: &[Token<'_>], target: Target) -> Result<Vec<usize>, AllocError> {
    let mut counts = Vec::new();
    if !has_target(tokens, target) {
        return Ok(counts);
    }
    let mut last = 0;
    counts.push(last);
    for (index, token) in tokens.iter().enumerate() {
        if is_target(target, token) {
            last = index + 1;
        }
        counts.push(last);
    }
    Ok(counts)
}

/// Returns whether one of the tokens of an argument is wanted, where `last_targets` are the numbers
/// that are returned for them.
fn holds_target(last_targets: &[usize], argument: &Argument) -> bool {
    let count = last_targets.len().saturating_sub(1);
    match last_targets.get(argument.end.min(count)) {
        Some(last) => argument.start < *last,
        None => false,
    }
}

/// A part of a file, whose arguments are searched in a time that does not grow with them. A
/// contract sees the tokens.
pub struct Part<'a> {
    source: Source<'a>,
    variables: Vec<usize>,
    raws: Vec<usize>,
}

impl<'a> Part<'a> {
    /// Reads the tokens of a part.
    pub(crate) fn new(source: Source<'a>) -> Result<Self, AllocError> {
        let variables = last_targets(source.tokens(), Target::Variable)?;
        let raws = last_targets(source.tokens(), Target::Raw)?;
        Ok(Part {
            source,
            variables,
            raws,
        })
    }

    /// Returns the tokens with their pairs of delimiters.
    #[inline]
    pub fn source(&self) -> &Source<'a> {
        &self.source
    }

    /// Returns the tokens.
    #[inline]
    pub fn tokens(&self) -> &[Token<'a>] {
        self.source.tokens()
    }

    /// Returns whether a variable of a macro stands in an argument.
    #[inline]
    pub fn has_variable(&self, argument: &Argument) -> bool {
        holds_target(&self.variables, argument)
    }

    /// Returns whether the word `raw` stands in an argument.
    #[inline]
    pub fn has_raw(&self, argument: &Argument) -> bool {
        holds_target(&self.raws, argument)
    }
}
