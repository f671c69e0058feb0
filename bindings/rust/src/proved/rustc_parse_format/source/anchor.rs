//! The position in a snippet that was last examined, from which the byte offset of the next
//! character in the snippet is computed.
//!
//! Such a snippet is an ordinary literal with escapes, so the byte offset of a character in it is
//! not simply 1 more than in the input:
//!
//! ```text
//! offset        0   4    9  12
//! snippet       "a\n two {x}\n"
//! anchor.rest        two {x}⏎     at offset 4, from where 8 bytes stand for themselves
//! rest                   {x}⏎     5 bytes further on, so at offset 9
//! ```
//!
//! Among the bytes that stand for themselves, the snippet is not examined. Continuations may come
//! after them, and from there on the snippet is read unit by unit.

// Extracted from crates/rustc_parse_format/src/source/anchor.rt by tools/extract: not to be edited.
// That source has the contracts, and is proved. That this text means the same is only tested.

use crate::proved::rustc_parse_format::characters::{after_first, first, run_width, Class};
use crate::proved::rustc_parse_format::literal::{is_newline_escape, read_unit, Rest};
use crate::shim::prelude::*;
use core::ops::Range;

/// The position in a snippet that was last examined.
#[derive(Clone, Copy)]
pub struct Anchor<'input> {
    /// The rest of the input at that position.
    pub(super) rest: &'input str,
    /// The byte offset of that position in the snippet, at which `rest` starts.
    pub offset: usize,
    /// The number of bytes from there on that stand for themselves.
    pub unescaped_len: usize,
}

/// Returns the length in bytes of the first unit of `text`, or 0 if that does not stand for a
/// character or if `text` begins with none.
#[inline(always)]
fn character_width(text: &str) -> usize {
    if is_newline_escape(text) {
        return 2;
    }
    match first(text) {
        Some('\\') => {
            let mut rest = Rest::new(text);
            let total = rest.len();
            match read_unit(&mut rest) {
                Some(Some(_)) => total - rest.len(),
                _ => 0,
            }
        }
        Some('"' | '\r') | None => 0,
        Some(c) => c.len_utf8(),
    }
}

/// Returns the length in bytes of the continuations at the start of `text`, or 0 if no character
/// comes after them.
#[inline(always)]
pub fn continuations_width(text: &str) -> usize {
    let mut rest = Rest::new(text);
    if !rest.begins_continuation() {
        return 0;
    }
    let total = rest.len();
    rest.skip_continuations();
    if rest.begins_with('"') {
        0
    } else {
        total - rest.len()
    }
}

/// The byte offsets in a snippet that follow from where a character starts.
#[derive(Clone, Copy)]
struct CharacterEnd {
    /// The byte offset at which the character ends.
    stop: usize,
    /// The byte offset at which the next character starts.
    next: usize,
}

/// Returns the end of the character that starts at the byte offset `at` of a snippet. An appended
/// newline counts as one byte.
#[inline(always)]
fn character_at(snippet: &str, at: usize) -> CharacterEnd {
    let text = &snippet[at..];
    let width = character_width(text);
    if width == 0 {
        return CharacterEnd {
            stop: at + 1,
            next: at,
        };
    }
    let stop = at + width;
    CharacterEnd {
        stop,
        next: stop + continuations_width(&text[width..]),
    }
}

/// Returns whether the bytes begin with `\x`, and no LF is where a continuation after that escape
/// would have it.
#[inline(always)]
fn begins_byte_escape(bytes: &[u8]) -> bool {
    if bytes.len() < 6 || bytes[0] != b'\\' || bytes[1] != b'x' {
        return false;
    }
    bytes[5] != b'\n'
}

/// Returns whether a backslash and this letter are an escape.
#[inline(always)]
fn is_escape_letter(letter: u8) -> bool {
    matches!(letter, b'n' | b'r' | b't' | b'0' | b'\'' | b'"' | b'\\')
}

/// Returns whether the bytes begin with an escape of a backslash and a letter, and no LF is where a
/// continuation after it would have it.
#[inline(always)]
fn begins_letter_escape(bytes: &[u8]) -> bool {
    if bytes.len() < 4 || bytes[0] != b'\\' || bytes[3] == b'\n' {
        return false;
    }
    is_escape_letter(bytes[1])
}

/// Returns the byte offset in a snippet at which the character after the one at `at` starts. Most
/// escapes are passed by their first letter, for speed.
#[inline(always)]
fn next_start(snippet: &str, at: usize) -> usize {
    let bytes = snippet.as_bytes();
    if begins_byte_escape(&bytes[at..]) {
        return at + 4;
    }
    if begins_letter_escape(&bytes[at..]) {
        return at + 2;
    }
    character_at(snippet, at).next
}

/// Returns the number of bytes from the byte offset `at` on up to the next backslash, or up to the
/// closing quote if there is none.
#[inline(always)]
fn unescaped_width(snippet: &str, at: usize) -> usize {
    let bytes = snippet.as_bytes();
    // (so it is in a run of escapes)
    if bytes[at] == b'\\' {
        return 0;
    }
    run_width(&bytes[at..bytes.len() - 1], Class::Unescaped)
}

/// Returns the suffix of `text` after this number of bytes, or after fewer if they end inside a
/// character. If that is shorter than `rest`, another suffix of `text`, returns `rest`.
#[inline(always)]
fn after_bytes<'a>(text: &'a str, bytes: usize, rest: &'a str) -> &'a str {
    if text.len() - rest.len() <= bytes {
        return rest;
    }
    &text[text.boundary_at_most(bytes)..]
}

impl<'input> Anchor<'input> {
    /// Returns the anchor at the byte offset `offset` of a snippet, at which `rest` starts.
    #[inline(always)]
    pub fn new(snippet: &str, rest: &'input str, offset: usize) -> Anchor<'input> {
        Anchor {
            rest,
            offset,
            unescaped_len: unescaped_width(snippet, offset),
        }
    }

    /// Skips the bytes that stand for themselves, at most up to `rest`, and the continuations after
    /// them. Returns the rest of the input there, and its byte offset in the snippet.
    #[inline(always)]
    fn after_unescaped(&self, snippet: &str, rest: &'input str) -> (&'input str, usize) {
        if self.unescaped_len == 0 {
            return (self.rest, self.offset);
        }
        let rest_after = after_bytes(self.rest, self.unescaped_len, rest);
        let distance = self.rest.len() - rest_after.len();
        let offset = self.offset + distance;
        if distance == 0 || distance < self.unescaped_len {
            return (rest_after, offset);
        }
        (rest_after, offset + continuations_width(&snippet[offset..]))
    }

    /// Returns the byte offset of `rest` in the snippet, by reading the snippet: in turn, bytes
    /// that stand for themselves, and a unit that does not.
    #[inline(never)]
    fn offset_by_look(&self, snippet: &str, rest: &'input str) -> usize {
        let mut at = self.after_unescaped(snippet, rest);
        while at.0.len() > rest.len() {
            let next = next_start(snippet, at.1);
            at = Anchor::new(snippet, after_first(at.0), next).after_unescaped(snippet, rest);
        }
        at.1
    }

    /// Returns the byte offset of `rest` in the snippet. Does not read the snippet if all bytes up
    /// to the first one of `rest` stand for themselves.
    #[inline(always)]
    pub fn offset_of(&self, snippet: &str, rest: &'input str) -> usize {
        let distance = self.rest.len() - rest.len();
        if distance == 0 || distance < self.unescaped_len {
            return self.offset + distance;
        }
        self.offset_by_look(snippet, rest)
    }

    /// Returns the byte offset in the snippet at which the first character of `rest` ends.
    #[inline(never)]
    pub fn stop_of(&self, snippet: &str, rest: &'input str) -> usize {
        character_at(snippet, self.offset_of(snippet, rest)).stop
    }

    /// Moves the anchor to `rest`, unless the byte offset of `rest` is known without reading the
    /// snippet.
    #[inline(always)]
    pub fn move_anchor(&mut self, snippet: &str, rest: &'input str) {
        let distance = self.rest.len() - rest.len();
        if distance > 0 && distance >= self.unescaped_len {
            *self = Anchor::new(snippet, rest, self.offset_by_look(snippet, rest));
        }
    }

    /// Returns the byte range in the snippet of the first character of `rest`, and the anchor after
    /// it, where `rest_after` starts.
    #[inline(never)]
    fn pass_by_look(
        &self,
        snippet: &str,
        rest: &'input str,
        rest_after: &'input str,
    ) -> (Range<usize>, Anchor<'input>) {
        let start = self.offset_of(snippet, rest);
        let CharacterEnd { stop, next } = character_at(snippet, start);
        (start..stop, Anchor::new(snippet, rest_after, next))
    }

    /// Returns the byte range in the snippet of the first character of `rest`, and the text after
    /// it. Moves the anchor to that text, unless the character stands for itself.
    #[inline(always)]
    pub fn pass(&mut self, snippet: &str, rest: &'input str) -> (Range<usize>, &'input str) {
        let rest_after = after_first(rest);
        let distance = self.rest.len() - rest_after.len();
        if distance <= self.unescaped_len {
            let start = self.offset + (self.rest.len() - rest.len());
            return (start..self.offset + distance, rest_after);
        }
        let (place, anchor) = self.pass_by_look(snippet, rest, rest_after);
        *self = anchor;
        (place, rest_after)
    }
}
