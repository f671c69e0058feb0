//! Whether tokens are a forest, decided as they are read one after the other.

// Extracted from crates/rust_trees/src/balance.rt by tools/extract: not to be edited.
// That source has the contracts, and is proved. That this text means the same is only tested.

use crate::proved::rust_trees::leaves::Token;
use crate::proved::rust_trees::matching::Opening;
use crate::proved::rust_trees::sides::{is_same, Delimiter, Side};
use crate::shim::alloc::AllocError;
use crate::shim::prelude::*;

/// In which way tokens break.
#[derive(Clone, Copy, Debug, Eq, PartialEq)]
pub enum BreakKind {
    /// A delimiter is not closed: the last of these.
    UnclosedDelimiter,
    /// A closing delimiter stands where nothing is to be closed, or another kind of delimiter.
    UnexpectedDelimiter,
    /// A token lacks its end.
    UnterminatedToken,
}

/// Where tokens break.
#[derive(Clone, Copy, Debug, Eq, PartialEq)]
pub struct FileBreak {
    /// In which way.
    pub kind: BreakKind,
    /// The byte offset where the token starts.
    pub start: usize,
}

/// The tokens so far, as far as it matters to whether they break.
pub struct Balance {
    /// The delimiters that may still be closed, each with the byte offset where it starts.
    openings: Vec<Opening>,
    /// Where the tokens break already.
    first_break: Option<FileBreak>,
}

impl Balance {
    /// Returns that of no tokens. Does not allocate.
    #[inline]
    pub(crate) fn new() -> Balance {
        Balance {
            openings: Vec::new(),
            first_break: None,
        }
    }

    /// Adds a closing delimiter to tokens that do not break.
    #[inline]
    fn close(&mut self, delimiter: Delimiter, start: usize) {
        if let Some(top) = self.openings.pop() {
            if is_same(top.delimiter, delimiter) {
                return;
            }
        }
        self.first_break = Some(FileBreak {
            kind: BreakKind::UnexpectedDelimiter,
            start,
        });
    }

    /// Adds a token.
    #[inline]
    pub(crate) fn add(&mut self, token: &Token<'_>) -> Result<(), AllocError> {
        if self.first_break.is_some() {
            return Ok(());
        }
        if !token.is_ended {
            self.first_break = Some(FileBreak {
                kind: BreakKind::UnterminatedToken,
                start: token.start,
            });
            return Ok(());
        }
        match token.side() {
            Side::Neither => {}
            Side::Opens(delimiter) => self.openings.push(Opening {
                position: token.start,
                delimiter,
            }),
            Side::Closes(delimiter) => self.close(delimiter, token.start),
        }
        Ok(())
    }

    /// Adds tokens, one after the other.
    #[inline]
    pub(crate) fn add_all(&mut self, tokens: &[Token<'_>]) -> Result<(), AllocError> {
        for token in tokens {
            self.add(token)?;
        }
        Ok(())
    }

    /// Returns where all the tokens break, or `None` if they are a forest.
    #[inline]
    pub fn first_break(mut self) -> Option<FileBreak> {
        if self.first_break.is_some() {
            return self.first_break;
        }
        match self.openings.pop() {
            Some(opening) => Some(FileBreak {
                kind: BreakKind::UnclosedDelimiter,
                start: opening.position,
            }),
            None => None,
        }
    }
}
