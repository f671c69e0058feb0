//! The tokens of a file without white space and comments.

// Extracted from crates/rust_trees/src/leaves.rt by tools/extract: not to be edited.
// That source has the contracts, and is proved. That this text means the same is only tested.

use crate::proved::rust_tokens::{begins_with_word, skip_head, split_first_token, Kind};
use crate::proved::rust_trees::sides::{side_of, Side};
use crate::shim::alloc::AllocError;
use crate::shim::prelude::*;

/// A token of a file.
#[derive(Clone, Copy)]
pub struct Token<'a> {
    /// The kind.
    pub kind: Kind,
    /// Whether it has its end.
    pub is_ended: bool,
    /// Whether it is a literal with a suffix.
    pub has_suffix: bool,
    /// Its text, with its suffix.
    pub text: &'a str,
    /// The byte offset where it starts.
    pub start: usize,
}

impl Token<'_> {
    /// Returns the side of the token among pairs of delimiters.
    #[inline]
    pub fn side(&self) -> Side {
        side_of(self.kind, self.text)
    }
}

/// Returns whether a token is kept: it is no white space, and a comment only if it lacks its end.
#[inline]
fn is_leaf(kind: Kind, is_ended: bool) -> bool {
    match kind {
        Kind::Whitespace
        | Kind::LineComment
        | Kind::OuterLineDoc
        | Kind::InnerLineDoc
        | Kind::Shebang
        | Kind::ByteOrderMark => false,
        Kind::BlockComment | Kind::OuterBlockDoc | Kind::InnerBlockDoc => !is_ended,
        _ => true,
    }
}

/// Returns the first token of the rest of a text, and the rest after it, or `None` if no token is
/// left.
#[inline(always)]
fn split_first_leaf<'a>(text: &'a str, rest: &'a str) -> Option<(Token<'a>, &'a str)> {
    let mut tail = rest;
    while let Some((token, rest_after)) = split_first_token(tail) {
        if is_leaf(token.kind, token.is_ended) {
            let leaf = Token {
                kind: token.kind,
                is_ended: token.is_ended,
                has_suffix: token.suffix_start < token.span.end,
                text: &tail[..token.span.end],
                start: text.len() - tail.len(),
            };
            return Some((leaf, rest_after));
        }
        tail = rest_after;
    }
    None
}

/// The tokens of a file without white space and comments, read one after the other. A contract sees
/// the file and the rest of it.
pub struct Tokens<'a> {
    text: &'a str,
    rest: &'a str,
}

impl<'a> Tokens<'a> {
    /// Returns the tokens of a file.
    #[inline]
    pub fn new(text: &'a str) -> Self {
        Tokens {
            text,
            rest: skip_head(text),
        }
    }

    /// Returns the next token, or `None` if none is left.
    #[inline(always)]
    pub fn next(&mut self) -> Option<Token<'a>> {
        let Some((token, rest)) = split_first_leaf(self.text, self.rest) else {
            return None;
        };
        self.rest = rest;
        Some(token)
    }

    /// Returns the rest of the file.
    #[inline]
    pub fn rest(&self) -> &'a str {
        self.rest
    }

    /// Passes a front of the rest, if it begins with that and goes on with a word, and returns
    /// whether it does. The front is passed as the tokens that it reads as before each word.
    #[inline]
    pub fn skip(&mut self, front: &str) -> bool {
        let Some(rest) = self.rest.strip_prefix(front) else {
            return false;
        };
        if !begins_with_word(rest) {
            return false;
        }
        self.rest = rest;
        true
    }

    /// Returns the next token without reading it, or `None` if none is left.
    #[inline]
    pub fn peek(&self) -> Option<Token<'a>> {
        match split_first_leaf(self.text, self.rest) {
            Some((token, _)) => Some(token),
            None => None,
        }
    }
}

/// Returns the tokens of a file without white space and comments.
#[inline]
pub fn leaves(text: &str) -> Result<Vec<Token<'_>>, AllocError> {
    let mut rest = Tokens::new(text);
    let mut tokens = Vec::new();
    while let Some(token) = rest.next() {
        tokens.push(token);
    }
    Ok(tokens)
}
