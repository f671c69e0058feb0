//! The rest of a text, which is consumed one character at a time.

// Extracted from crates/rustc_parse_format/src/literal/rest.rt by tools/extract: not to be edited.
// That source has the contracts, and is proved. That this text means the same is only tested.

use crate::proved::rustc_parse_format::blocks::plain_front;
use crate::proved::rustc_parse_format::characters::{after_first, begins, first, split_run, Class};
use crate::shim::prelude::*;

/// The rest of a text.
pub struct Rest<'a> {
    text: &'a str,
}

impl<'a> Rest<'a> {
    /// Returns a `Rest` that is the whole text.
    #[inline(always)]
    pub fn new(text: &'a str) -> Rest<'a> {
        Rest { text }
    }

    /// Returns the rest as a text.
    #[inline(always)]
    pub fn text(&self) -> &'a str {
        self.text
    }

    /// Returns the number of bytes that are left.
    #[inline(always)]
    pub fn len(&self) -> usize {
        byte_count(self.text)
    }

    /// Returns whether nothing is left.
    #[inline(always)]
    pub fn is_empty(&self) -> bool {
        self.peek().is_none()
    }

    /// Returns the next character, or `None` if nothing is left. Consumes nothing.
    #[inline(always)]
    pub fn peek(&self) -> Option<char> {
        first(self.text)
    }

    /// Consumes and returns the next character, or returns `None` if nothing is left.
    #[inline(always)]
    pub fn next(&mut self) -> Option<char> {
        let first = self.peek();
        self.text = after_first(self.text);
        first
    }

    /// Consumes the next character, whatever it is, and returns whether it was this one.
    #[inline(always)]
    pub fn next_eq(&mut self, c: char) -> bool {
        self.next() == Some(c)
    }

    /// Returns whether the next character is this one. Consumes nothing.
    #[inline(always)]
    pub fn begins_with(&self, c: char) -> bool {
        self.peek() == Some(c)
    }

    /// Consumes the next character if it is this ASCII character, given by its byte, and returns
    /// whether it was.
    #[inline(always)]
    pub fn consume_ascii(&mut self, byte: u8) -> bool {
        match after_ascii(self.text, byte) {
            Some(rest) => {
                self.text = rest;
                true
            }
            None => false,
        }
    }

    /// Consumes and returns the characters in the class that come next. The class has all
    /// characters outside ASCII.
    #[inline(always)]
    pub fn take_run(&mut self, class: Class) -> &'a str {
        let (run, rest) = split_run(self.text, class);
        self.text = rest;
        run
    }

    /// Skips in both texts the plain characters with which they go on alike.
    #[inline(always)]
    pub fn skip_plain(&mut self, other: &mut Rest<'_>) {
        let (rest, other_rest) = after_plain(self.text, other.text);
        self.text = rest;
        other.text = other_rest;
    }

    /// Returns whether the rest begins with a string continuation: a backslash and an LF.
    #[inline(always)]
    pub fn begins_continuation(&self) -> bool {
        begins(self.text, '\\') && begins(after_first(self.text), '\n')
    }

    /// Skips all string continuations at the start of the rest of a content with its closing quote.
    #[inline]
    pub fn skip_continuations(&mut self) {
        while self.begins_continuation() {
            self.text = after_first(after_first(self.text));
            self.skip_ws();
        }
    }

    /// Skips the white space that belongs to a string continuation: all HT, LF, CR and space.
    #[inline(always)]
    pub fn skip_ws(&mut self) {
        while let Some('\t' | '\n' | '\r' | ' ') = self.peek() {
            self.text = after_first(self.text);
        }
    }
}

/// Returns the length of a text in bytes.
#[inline(always)]
fn byte_count(text: &str) -> usize {
    text.len()
}

/// Returns the text after this ASCII character, or `None` if the text does not begin with it.
#[inline(always)]
fn after_ascii(text: &str, byte: u8) -> Option<&str> {
    let bytes = text.as_bytes();
    if bytes.is_empty() || bytes[0] != byte {
        return None;
    }
    Some(&text[1..])
}

/// Returns whether the byte is plain: no quote, no backslash and no CR, which a literal has to
/// escape.
#[inline(always)]
fn is_plain(byte: u8) -> bool {
    byte != b'"' && byte != b'\\' && byte != b'\r'
}

/// Returns the length in bytes of the longest prefix that is the same in both and plain.
#[inline(always)]
pub fn plain_width(bytes: &[u8], others: &[u8]) -> usize {
    let limit = bytes.len().min(others.len());
    for i in plain_front(bytes, others)..limit {
        if bytes[i] != others[i] || !is_plain(bytes[i]) {
            return i;
        }
    }
    limit
}

/// Returns whether both begin with the same byte, which is no backslash: one escape often comes
/// after another.
#[inline(always)]
fn begin_alike(bytes: &[u8], others: &[u8]) -> bool {
    !bytes.is_empty() && bytes[0] != b'\\' && !others.is_empty() && bytes[0] == others[0]
}

/// Returns the rests of both texts after the plain characters with which they begin alike. If they
/// first differ inside a character, both rests begin with that character.
#[inline(always)]
fn after_plain<'a, 'b>(text: &'a str, other: &'b str) -> (&'a str, &'b str) {
    let bytes = text.as_bytes();
    let others = other.as_bytes();
    if !begin_alike(bytes, others) {
        return (text, other);
    }
    let same_width = plain_width(bytes, others);
    let width = text.boundary_at_most(same_width);
    (&text[width..], &other[width..])
}
