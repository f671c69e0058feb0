//! The source of an input, and the byte ranges that the characters of the input have in it.

// Extracted from crates/rustc_parse_format/src/source.rt by tools/extract: not to be edited.
// That source has the contracts, and is proved. That this text means the same is only tested.

use crate::shim::prelude::*;
pub(crate) mod anchor;

use crate::proved::rustc_parse_format::characters::{after_first, first};
use crate::proved::rustc_parse_format::literal::source_end;
use anchor::continuations_width;
pub use anchor::Anchor;
use core::ops::Range;

/// The place of an input in its source.
pub struct Source<'input> {
    input: &'input str,
    /// The byte offset in the source at which the input starts.
    pub offset: usize,
    /// The byte offset in the source at which the text of the input ends.
    pub end: usize,
    /// The snippet, if it is an ordinary source literal with escapes. Otherwise `None`, and byte
    /// offsets are computed from the input.
    pub kept_snippet: Option<String>,
    /// Whether the snippet is the source literal of the input.
    pub is_literal: bool,
}

impl<'input> Source<'input> {
    /// Returns the byte offset in the source at which the first character of `rest` starts, or if
    /// `rest` is empty the one at which the text ends.
    #[inline(always)]
    pub fn start(&self, rest: &'input str, anchor: &Anchor<'input>) -> usize {
        if rest.is_empty() {
            return self.end;
        }
        match &self.kept_snippet {
            Some(snippet) => anchor.offset_of(snippet.as_str(), rest),
            None => self.offset + (self.input.len() - rest.len()),
        }
    }

    /// Returns the byte offset in the source at which the first character of `rest` ends, or if
    /// `rest` is empty the one at which the text ends.
    #[inline(always)]
    pub fn stop(&self, rest: &'input str, anchor: &Anchor<'input>) -> usize {
        if rest.is_empty() {
            return self.end;
        }
        match &self.kept_snippet {
            Some(snippet) => anchor.stop_of(snippet.as_str(), rest),
            None => self.offset + (self.input.len() - after_first(rest).len()),
        }
    }

    /// Returns the byte range in the source of the first character of `rest`, and the text after
    /// it. If `rest` is empty, returns the empty range where the text ends. May move the anchor up
    /// to the text that is left.
    #[inline(always)]
    pub fn pass(
        &self,
        rest: &'input str,
        anchor: &mut Anchor<'input>,
    ) -> (Range<usize>, &'input str) {
        if rest.is_empty() {
            return (self.end..self.end, rest);
        }
        match &self.kept_snippet {
            Some(snippet) => anchor.pass(snippet.as_str(), rest),
            None => {
                let rest_after = after_first(rest);
                let start = self.offset + (self.input.len() - rest.len());
                (
                    start..self.offset + (self.input.len() - rest_after.len()),
                    rest_after,
                )
            }
        }
    }

    /// Returns the byte offset of `rest` in the input.
    #[inline(always)]
    pub fn position(&self, rest: &'input str) -> usize {
        self.input.len() - rest.len()
    }

    /// Returns the byte range in the source of the first character of `rest`, its byte offset in
    /// the input, and the character itself, or `None` if `rest` is empty.
    #[inline(always)]
    pub fn peek_place(
        &self,
        rest: &'input str,
        anchor: &Anchor<'input>,
    ) -> Option<(Range<usize>, usize, char)> {
        let c = first(rest)?;
        let position = self.position(rest);
        Some((
            self.start(rest, anchor)..self.stop(rest, anchor),
            position,
            c,
        ))
    }
}

/// Returns the length in bytes of the opening of a literal: a quote, or an `r`, the hashes and a
/// quote.
#[inline]
pub fn quote_offset(style: Option<usize>) -> usize {
    match style {
        None => 1,
        Some(hashes) => hashes + 2,
    }
}

/// Returns the byte offset at which a text without a source literal ends: the length of the
/// snippet, or without a snippet that of the input, less its appended newline.
#[inline]
fn plain_end(input: &str, snippet: &Option<String>, appended_newline: bool) -> usize {
    match snippet {
        Some(text) => text.as_str().len(),
        None if appended_newline => input.len().saturating_sub(1),
        None => input.len(),
    }
}

/// Returns the byte offset at which the text of the input's source literal ends, or `None` if there
/// is no snippet or it is not that literal.
#[inline(always)]
fn found_end(
    input: &str,
    style: Option<usize>,
    snippet: &Option<String>,
    appended_newline: bool,
) -> Option<usize> {
    match snippet {
        Some(text) => source_end(input, style, text.as_str(), appended_newline),
        None => None,
    }
}

/// Returns whether an ordinary source literal is longer than its quotes and the text that it stands
/// for, so that it has escapes. Returns false for a raw literal and without a snippet.
#[inline]
fn is_longer(
    input: &str,
    style: Option<usize>,
    snippet: &Option<String>,
    appended_newline: bool,
) -> bool {
    match (style, snippet) {
        (None, Some(text)) => {
            let quotes = if appended_newline { 1 } else { 2 };
            text.as_str().len() != input.len() + quotes
        }
        _ => false,
    }
}

/// Returns the snippet if it is to be kept, or else `None`.
#[inline]
fn kept_if(is_kept: bool, snippet: Option<String>) -> Option<String> {
    if is_kept {
        snippet
    } else {
        None
    }
}

/// Returns the source of an input. The style of its literal is `None` for an ordinary one, or the
/// number of the hashes of a raw one; `appended_newline` is whether a newline was appended to the
/// input.
#[inline(always)]
pub fn source_of<'input>(
    input: &'input str,
    style: Option<usize>,
    snippet: Option<String>,
    appended_newline: bool,
) -> Source<'input> {
    let offset = quote_offset(style);
    let literal_end = found_end(input, style, &snippet, appended_newline);
    let is_literal = literal_end.is_some();
    let is_kept = is_literal && is_longer(input, style, &snippet, appended_newline);
    let end = literal_end.unwrap_or(plain_end(input, &snippet, appended_newline));
    let kept_snippet = kept_if(is_kept, snippet);
    Source {
        input,
        offset,
        end,
        kept_snippet,
        is_literal,
    }
}

/// Returns the anchor at the first character of the input of `source`.
#[inline(always)]
pub fn first_anchor<'input>(source: &Source<'input>) -> Anchor<'input> {
    match &source.kept_snippet {
        Some(snippet) => {
            let offset = 1 + continuations_width(&snippet.as_str()[1..]);
            Anchor::new(snippet.as_str(), source.input, offset)
        }
        None => Anchor {
            rest: source.input,
            offset: 0,
            unescaped_len: 0,
        },
    }
}
