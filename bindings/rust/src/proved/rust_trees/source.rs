//! A file as token trees.

// Extracted from crates/rust_trees/src/source.rt by tools/extract: not to be edited.
// That source has the contracts, and is proved. That this text means the same is only tested.

use crate::proved::rust_trees::leaves::{leaves, Token, Tokens};
use crate::proved::rust_trees::matching::{
    add, break_of, is_closed, match_delimiters, DelimiterBreak, Matching,
};
use crate::proved::rust_trees::sides::is_closing;
use crate::shim::alloc::AllocError;
use crate::shim::prelude::*;

/// The tokens of a file with the pairs of delimiters among them. A contract sees the tokens.
pub struct Source<'a> {
    tokens: Vec<Token<'a>>,
    partners: Vec<Option<usize>>,
    first_break: Option<DelimiterBreak>,
}

/// Returns tokens with the pairs that were found among them.
#[inline]
fn source_of<'a>(tokens: Vec<Token<'a>>, matching: Matching) -> Source<'a> {
    let first_break = break_of(matching.unexpected_index, matching.openings);
    Source {
        tokens,
        partners: matching.partners,
        first_break,
    }
}

impl<'a> Source<'a> {
    /// Reads a file.
    #[inline]
    pub(crate) fn new(text: &'a str) -> Result<Self, AllocError> {
        let tokens = leaves(text)?;
        let matching = match_delimiters(&tokens)?;
        Ok(source_of(tokens, matching))
    }

    /// Reads the tokens of a file after these, up to the closing delimiter that closes the last
    /// open one of them, or to the end of the file if there is none. Returns all these tokens.
    #[inline]
    pub(crate) fn read_group(
        front: &[Token<'a>],
        rest: &mut Tokens<'a>,
    ) -> Result<Self, AllocError> {
        let mut tokens = Vec::new();
        tokens.extend_from_slice(front);
        let mut matching = match_delimiters(front)?;
        while let Some(token) = rest.next() {
            add(&mut matching, &token)?;
            tokens.push(token);
            if is_closing(token.side()) && is_closed(&matching) {
                return Ok(source_of(tokens, matching));
            }
        }
        Ok(source_of(tokens, matching))
    }

    /// Returns the tokens: no white space, and no comment that has its end.
    #[inline]
    pub fn tokens(&self) -> &[Token<'a>] {
        &self.tokens
    }

    /// Returns the index of the partner of a delimiter, or `None` if the token has none.
    #[inline]
    pub fn partner(&self, index: usize) -> Option<usize> {
        if index < self.partners.len() {
            self.partners[index]
        } else {
            None
        }
    }

    /// Returns the place where the tokens break, or `None` if they are a forest.
    #[inline]
    pub fn first_break(&self) -> Option<DelimiterBreak> {
        self.first_break
    }
}
