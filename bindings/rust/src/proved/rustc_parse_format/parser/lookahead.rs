//! The rest of a text, which no other module sees: others can look at one character, or move, and
//! a move counts the characters that are passed.

// Extracted from crates/rustc_parse_format/src/parser/lookahead.rt by tools/extract: not to be edited.
// That source has the contracts, and is proved. That this text means the same is only tested.

use crate::proved::rustc_parse_format::characters::{
    after_first, after_while, begins, begins_digit, begins_white, begins_word, first,
    is_underscore, leading_number, split_word, text_before, Class, LeadingNumber,
};
use crate::proved::rustc_parse_format::source::{Anchor, Source};
use core::ops::Range;

/// A place in a text, of which only the character there can be seen.
#[derive(Clone, Copy)]
pub struct Spot<'input> {
    text: &'input str,
}

/// The rest of a text that is still to be read, with the count of the steps made so far. There is
/// no way on but the moves, and each counts its steps.
pub struct Lookahead<'input> {
    rest: Spot<'input>,
}

/// An earlier position of a cursor, with the count of its steps there.
pub struct Checkpoint<'input> {
    pub rest: Spot<'input>,
    pub anchor: Anchor<'input>,
}

impl<'input> Spot<'input> {
    /// Returns the character, or `None` at the end of the text.
    #[inline(always)]
    pub fn character(self) -> Option<char> {
        first(self.text)
    }

    /// Returns whether the character is `c`, which is ASCII.
    #[inline(always)]
    pub fn is_char(self, c: char) -> bool {
        begins(self.text, c)
    }

    /// Returns whether the character is an ASCII digit.
    #[inline(always)]
    pub fn is_digit(self) -> bool {
        begins_digit(self.text)
    }

    /// Returns whether the character is white space.
    #[inline(always)]
    pub fn is_white(self) -> bool {
        begins_white(self.text)
    }

    /// Returns whether the character can begin a word.
    #[inline(always)]
    pub fn is_id_start(self) -> bool {
        begins_word(self.text)
    }

    /// Returns the byte offset of the character in the input, or at its end the length of that.
    #[inline(always)]
    pub fn position(self, source: &Source<'input>) -> usize {
        source.position(self.text)
    }

    /// Returns the byte offset in the source at which the character starts, or at the end of the
    /// text the one at which that ends.
    #[inline(always)]
    pub fn start(self, source: &Source<'input>, anchor: &Anchor<'input>) -> usize {
        source.start(self.text, anchor)
    }

    /// Returns the byte offset in the source at which the character ends, or at the end of the text
    /// the one at which that ends.
    #[inline(always)]
    pub fn stop(self, source: &Source<'input>, anchor: &Anchor<'input>) -> usize {
        source.stop(self.text, anchor)
    }

    /// Returns the byte range of the character in the source, its byte offset in the input, and the
    /// character itself, or `None` at the end of the input.
    #[inline(always)]
    pub fn place(
        self,
        source: &Source<'input>,
        anchor: &Anchor<'input>,
    ) -> Option<(Range<usize>, usize, char)> {
        source.peek_place(self.text, anchor)
    }

    /// Examines the snippet here, from which byte offsets are then computed.
    #[inline(always)]
    pub fn move_anchor(self, source: &Source<'input>, anchor: &mut Anchor<'input>) {
        if let Some(snippet) = &source.kept_snippet {
            anchor.move_anchor(snippet.as_str(), self.text);
        }
    }
}

/// Returns the byte range in the source of the text from `from` up to `to`. It is not inlined,
/// since few words are a fault.
#[cold]
#[inline(never)]
fn place_between<'input>(
    from: &Spot<'input>,
    to: &Spot<'input>,
    source: &Source<'input>,
    anchor: &Anchor<'input>,
) -> Range<usize> {
    from.start(source, anchor)..to.start(source, anchor)
}

/// Returns the byte range in the source of the text from `from` up to `to`, with the character at
/// `to`. It is not inlined, since few numbers are a fault.
#[cold]
#[inline(never)]
fn place_through<'input>(
    from: &Spot<'input>,
    to: &Spot<'input>,
    source: &Source<'input>,
    anchor: &Anchor<'input>,
) -> Range<usize> {
    from.start(source, anchor)..to.stop(source, anchor)
}

impl<'input> Lookahead<'input> {
    /// Returns the whole of a text, over which no step was made. Only a parser can make one.
    #[inline(always)]
    pub(crate) fn new(text: &'input str) -> Lookahead<'input> {
        Lookahead {
            rest: Spot { text },
        }
    }

    /// Returns the place of the next character.
    #[inline(always)]
    pub fn next(&self) -> Spot<'input> {
        self.rest
    }

    /// Returns the place of the character after the next one.
    #[inline(always)]
    pub fn second(&self) -> Spot<'input> {
        Spot {
            text: after_first(self.rest.text),
        }
    }

    /// Returns the current position, of which this is the anchor.
    #[inline(always)]
    pub fn checkpoint(&self, anchor: Anchor<'input>) -> Checkpoint<'input> {
        Checkpoint {
            rest: self.rest,
            anchor,
        }
    }

    /// Returns the text between `start` and the next character.
    #[inline(always)]
    pub fn text_since(&self, start: Spot<'input>) -> &'input str {
        text_before(start.text, self.rest.text)
    }

    /// Moves past the next character, if there is one.
    #[inline(always)]
    pub fn skip_char(&mut self) {
        self.rest.text = after_first(self.rest.text);
    }

    /// Moves past the next character, if there is one, and returns its byte range in the source. At
    /// the end of the input, returns the empty range where the text ends.
    #[inline(always)]
    pub fn consume_place(
        &mut self,
        source: &Source<'input>,
        anchor: &mut Anchor<'input>,
    ) -> Range<usize> {
        let (place, rest) = source.pass(self.rest.text, anchor);
        self.rest.text = rest;
        place
    }

    /// Moves past the longest prefix of characters in the class.
    #[inline(always)]
    pub fn skip_while(&mut self, class: Class) {
        let rest = after_while(self.rest.text, class);

        self.rest.text = rest;
    }

    /// Reads the word that comes next. If it is `_`, also returns its byte range in the source.
    #[inline(always)]
    pub fn word(
        &mut self,
        source: &Source<'input>,
        anchor: &Anchor<'input>,
    ) -> (&'input str, Option<Range<usize>>) {
        let (word, rest) = split_word(self.rest.text);
        let underscore = if is_underscore(word) {
            Some(place_between(
                &self.rest,
                &Spot { text: rest },
                source,
                anchor,
            ))
        } else {
            None
        };

        self.rest.text = rest;
        (word, underscore)
    }

    /// Reads the ASCII digits that come next, and returns their value modulo 65536. If that value
    /// exceeds 65535, also returns the digits, and the byte range in the source of the digits with
    /// the character after them.
    #[inline(always)]
    pub fn number(
        &mut self,
        source: &Source<'input>,
        anchor: &Anchor<'input>,
    ) -> (u16, Option<(&'input str, Range<usize>)>) {
        let LeadingNumber {
            value: number,
            is_over,
            rest,
        } = leading_number(self.rest.text);
        let over = if is_over {
            let place = place_through(&self.rest, &Spot { text: rest }, source, anchor);
            Some((text_before(self.rest.text, rest), place))
        } else {
            None
        };

        self.rest.text = rest;
        (number, over)
    }

    /// Goes back to the earlier place `spot`. The characters from there on can then be read again,
    /// which counts as new steps.
    #[inline(always)]
    pub fn rewind(&mut self, spot: Spot<'input>) {
        self.rest = spot;
    }
}
