//! A cursor over the input, with the byte offset of its position in the source.

// Extracted from crates/rustc_parse_format/src/cursor.rt by tools/extract: not to be edited.
// That source has the contracts, and is proved. That this text means the same is only tested.

pub(crate) mod words;

pub use crate::proved::rustc_parse_format::parser::lookahead::Checkpoint;
use crate::proved::rustc_parse_format::parser::lookahead::Lookahead;
use crate::proved::rustc_parse_format::source::{first_anchor, Anchor, Source};
use core::ops::Range;

/// A position in the input: the text that is left, and where that starts in the source.
pub struct Cursor<'input> {
    pub(crate) source: Source<'input>,
    lookahead: Lookahead<'input>,
    anchor: Anchor<'input>,
}

impl<'input> Cursor<'input> {
    /// Returns a cursor at the start of the input of `source`, which `lookahead` is. Does not
    /// allocate.
    #[inline(always)]
    pub fn new(source: Source<'input>, lookahead: Lookahead<'input>) -> Cursor<'input> {
        let anchor = first_anchor(&source);
        Cursor {
            source,
            lookahead,
            anchor,
        }
    }

    /// Returns the current position, for `text_since`, `rewind` and `undo`.
    #[inline(always)]
    pub fn checkpoint(&self) -> Checkpoint<'input> {
        self.lookahead.checkpoint(self.anchor)
    }

    /// Proves that the cursor has made few steps, at most two for each character of the input. Does
    /// nothing when the program runs.
    #[inline]
    pub fn steps_are_few(&self) {
        let _rest = self.lookahead.next();
    }

    /// Returns the text between `start` and the current position.
    #[inline(always)]
    pub fn text_since(&self, start: &Checkpoint<'input>) -> &'input str {
        self.lookahead.text_since(start.rest)
    }

    /// Returns the next character, or `None` at the end of the input.
    #[inline(always)]
    pub fn peek(&self) -> Option<char> {
        self.lookahead.next().character()
    }

    /// Returns the character after the next one, or `None` if there is none.
    #[inline]
    pub fn peek_ahead(&self) -> Option<char> {
        self.lookahead.second().character()
    }

    /// Moves past the next character, if there is one. Only this function, `consume_place` and the
    /// functions of `words` move forward.
    #[inline]
    pub fn skip_char(&mut self) {
        self.lookahead.skip_char();
    }

    /// Moves past the next character, if there is one, and returns its byte range in the source. At
    /// the end of the input, returns the empty range where the text ends.
    #[inline(always)]
    pub fn consume_place(&mut self) -> Range<usize> {
        self.lookahead.consume_place(&self.source, &mut self.anchor)
    }

    /// Goes back to the position `checkpoint`. The characters from there on can then be read again,
    /// which counts as new steps.
    #[inline]
    pub fn rewind(&mut self, checkpoint: Checkpoint<'input>) {
        self.anchor = checkpoint.anchor;
        self.lookahead.rewind(checkpoint.rest);
    }

    /// Returns the byte offset in the source at which the next character starts, or at the end of
    /// the input the one at which the text ends.
    #[inline(always)]
    pub fn start(&self) -> usize {
        self.lookahead.next().start(&self.source, &self.anchor)
    }

    /// Returns whether the next character `c` is past the indentation of a line that starts at the
    /// byte offset `byte`: it starts after that, or it starts there and is not white space.
    #[inline(always)]
    pub fn is_past_indent(&self, c: char, byte: usize) -> bool {
        let start = self.lookahead.next().start(&self.source, &self.anchor);
        start > byte || start == byte && !c.is_whitespace()
    }

    /// Examines the snippet at the current position, from which byte offsets are then computed.
    /// Nothing that contracts show changes.
    #[inline(always)]
    pub fn move_anchor(&mut self) {
        self.lookahead
            .next()
            .move_anchor(&self.source, &mut self.anchor);
    }

    /// Returns the byte offset in the source at which the next character ends, or at the end of the
    /// input the one at which the text ends.
    #[inline(always)]
    pub fn stop(&self) -> usize {
        self.lookahead.next().stop(&self.source, &self.anchor)
    }

    /// Returns whether the snippet is the source literal of the input.
    #[inline]
    pub fn is_source_literal(&self) -> bool {
        self.source.is_literal
    }

    /// Returns the byte range of the next character in the source, its byte offset in the input,
    /// and the character itself, or `None` at the end of the input.
    #[inline(always)]
    pub fn peek_place(&self) -> Option<(Range<usize>, usize, char)> {
        self.lookahead.next().place(&self.source, &self.anchor)
    }

    /// Returns, for the character after the next one, its byte range in the source, its byte offset
    /// in the input, and the character itself, or `None` if there is none.
    #[inline(always)]
    pub fn peek_place_ahead(&self) -> Option<(Range<usize>, usize, char)> {
        self.lookahead.second().place(&self.source, &self.anchor)
    }

    /// Returns the byte offset of the next character in the input, or at the end the length of the
    /// input.
    #[inline(always)]
    pub fn position(&self) -> usize {
        self.lookahead.next().position(&self.source)
    }

    /// Returns whether the next character is `c`, which is ASCII.
    #[inline]
    pub fn is_next(&self, c: char) -> bool {
        self.lookahead.next().is_char(c)
    }

    /// Moves past the next character if it is `c`, which is ASCII. Returns whether it is.
    #[inline]
    pub fn consume(&mut self, c: char) -> bool {
        let is_present = self.is_next(c);
        if is_present {
            self.skip_char();
        }
        is_present
    }

    /// Returns whether the character after the next one is `c`, which is ASCII.
    #[inline]
    pub fn is_ahead(&self, c: char) -> bool {
        self.lookahead.second().is_char(c)
    }

    /// Returns whether a placeholder opens here: the next character is an opening brace, and the
    /// one after it is not.
    #[inline(always)]
    pub fn opens_placeholder(&self) -> bool {
        self.is_next('{') && !self.is_ahead('{')
    }

    /// Returns whether the next character is an ASCII digit.
    #[inline]
    pub fn is_digit_next(&self) -> bool {
        self.lookahead.next().is_digit()
    }

    /// Returns whether the next character can begin a word.
    #[inline]
    pub fn is_word_next(&self) -> bool {
        self.lookahead.next().is_id_start()
    }

    /// Returns whether the next two characters are `r#`.
    #[inline]
    pub fn is_raw_prefix_next(&self) -> bool {
        self.is_next('r') && self.is_ahead('#')
    }

    /// Returns whether the character after the next one can begin a word.
    #[inline]
    pub fn is_word_ahead(&self) -> bool {
        self.lookahead.second().is_id_start()
    }
}
