//! The longest prefixes that a cursor reads: characters of a class, white space, words and numbers.

// Extracted from crates/rustc_parse_format/src/cursor/words.rt by tools/extract: not to be edited.
// That source has the contracts, and is proved. That this text means the same is only tested.

use super::Cursor;
use crate::proved::rustc_parse_format::characters::Class;
use core::ops::Range;

impl<'input> Cursor<'input> {
    /// Moves past the longest prefix of characters in the class.
    #[inline(always)]
    pub fn skip_while(&mut self, class: Class) {
        self.lookahead.skip_while(class);
    }

    /// Moves past the white space at the cursor. Most often there is none.
    #[inline(always)]
    pub fn ws(&mut self) {
        if self.lookahead.next().is_white() {
            self.skip_ws();
        }
    }

    /// Moves past the white space at the cursor.
    #[inline(never)]
    fn skip_ws(&mut self) {
        self.skip_while(Class::White);
    }

    /// Reads the word that begins at the cursor. If it is `_`, also returns its byte range in the
    /// source.
    #[inline(always)]
    pub fn word(&mut self) -> (&'input str, Option<Range<usize>>) {
        self.lookahead.word(&self.source, &self.anchor)
    }

    /// Reads the ASCII digits at the cursor, and returns their value modulo 65536. If that value
    /// exceeds 65535, also returns the digits, and the byte range in the source of the digits with
    /// the character after them.
    #[inline(always)]
    pub fn number(&mut self) -> (u16, Option<(&'input str, Range<usize>)>) {
        self.lookahead.number(&self.source, &self.anchor)
    }
}
