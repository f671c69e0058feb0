//! The texts between the parts of a file that have calls, which read as the same tokens in another
//! file.

// Extracted from crates/format_calls/src/gap_texts.rt by tools/extract: not to be edited.
// That source has the contracts, and is proved. That this text means the same is only tested.

use crate::proved::format_calls::parts::opens_call;
use crate::proved::format_calls::table::Table;
use crate::proved::rust_tokens::ends_with_barrier;
use crate::proved::rust_trees::{Source, Token, Tokens};
use crate::shim::alloc::AllocError;
use crate::shim::prelude::*;

/// Returns the text before a part that begins in the rest of a file, which starts at this offset.
/// Returns `None` if the text may read as other tokens before another part, or if the part is no
/// forest.
fn gap_before<'a>(rest: &'a str, offset: usize, part: &Source<'a>) -> Option<&'a str> {
    let Some(name) = part.tokens().first() else {
        return None;
    };
    let Some(gap) = rest.get(..name.start.saturating_sub(offset)) else {
        return None;
    };
    if part.first_break().is_none() && ends_with_barrier(gap) {
        Some(gap)
    } else {
        None
    }
}

/// The texts between the parts of a file that have calls.
pub struct Gaps<'a> {
    /// The text before each part.
    pub fronts: Vec<&'a str>,
    /// The text after the last part.
    pub last: &'a str,
    /// Whether all these texts are known to read as the same tokens wherever they stand.
    pub are_known: bool,
}

impl<'a> Gaps<'a> {
    /// Returns the texts of a file of which no part is known yet: this text alone, as the one after
    /// the last part. Does not allocate.
    #[inline]
    pub(crate) fn new(last: &'a str) -> Self {
        Gaps {
            fronts: Vec::new(),
            last,
            are_known: true,
        }
    }

    /// Adds the text before a part that begins in the rest of a file, which starts at this offset.
    /// After a text that may read as other tokens, or a part that is no forest, the texts are no
    /// longer known.
    pub(crate) fn add(
        &mut self,
        rest: &'a str,
        offset: usize,
        part: &Source<'a>,
    ) -> Result<(), AllocError> {
        if !self.are_known {
            return Ok(());
        }
        match gap_before(rest, offset, part) {
            Some(gap) => self.fronts.push(gap),
            None => self.are_known = false,
        }
        Ok(())
    }

    /// Sets the text after the last part.
    #[inline]
    pub fn set_last(&mut self, last: &'a str) {
        self.last = last;
    }
}

/// Returns whether each token has its end.
#[inline]
fn are_ended(tokens: &[Token<'_>]) -> bool {
    for token in tokens {
        if !token.is_ended {
            return false;
        }
    }
    true
}

/// Reads a file up to the end of the next call as `next_part` does, where this text stands before
/// that. Returns `None` if another text does, or the part is no forest or lacks an end. Returns
/// `Err` if an allocation fails. How much of `rest` is left after `None` or `Err` is unspecified.
pub fn next_known_part<'a>(
    rest: &mut Tokens<'a>,
    table: &Table<'_>,
    gap: &str,
) -> Result<Option<Source<'a>>, AllocError> {
    if !rest.skip(gap) {
        return Ok(None);
    }
    let Some(name) = rest.next() else {
        return Ok(None);
    };
    let Some(bang) = rest.next() else {
        return Ok(None);
    };
    let Some(opening) = rest.next() else {
        return Ok(None);
    };
    if !opens_call(&table.rows, &name, &bang, &opening) {
        return Ok(None);
    }
    let tokens = [name, bang, opening];
    let part = Source::read_group(&tokens, rest)?;
    if part.first_break().is_none() && are_ended(part.tokens()) {
        Ok(Some(part))
    } else {
        Ok(None)
    }
}
