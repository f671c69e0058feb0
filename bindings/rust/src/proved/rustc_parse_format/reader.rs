//! The state of a parser during one call: its cursor, the index of the next implicit argument, and
//! the faults, lines and place that the call has found so far.

// Extracted from crates/rustc_parse_format/src/reader.rt by tools/extract: not to be edited.
// That source has the contracts, and is proved. That this text means the same is only tested.

use crate::proved::rustc_parse_format::characters::Class;
use crate::proved::rustc_parse_format::cursor::Cursor;
use crate::proved::rustc_parse_format::faults::{Fault, Faults};
use crate::shim::alloc::AllocError;
use crate::shim::prelude::*;
use core::ops::Range;

/// The state of a parser during one call. If one of its functions returns `Err`, an allocation
/// failed, and the state is to be restored with `rewind`.
pub struct Reader<'input> {
    /// The position in the input.
    pub cursor: Cursor<'input>,
    /// The index that the next implicit argument gets.
    pub curarg: usize,
    /// The faults found in this call.
    pub faults: Faults<'input>,
    /// The byte offset in the source at which the current line starts.
    pub line_start: usize,
    /// The byte ranges of the lines that ended in this call.
    pub lines: Vec<Range<usize>>,
    /// The byte range of the placeholder that this call closed, if any.
    pub closed_place: Option<Range<usize>>,
}

impl<'input> Reader<'input> {
    /// Returns a reader at `cursor`, whose next implicit argument has the index 0 and whose current
    /// line starts at the byte offset `line_start`. Does not allocate.
    #[inline]
    pub(crate) fn new(cursor: Cursor<'input>, line_start: usize) -> Reader<'input> {
        Reader {
            cursor,
            curarg: 0,
            faults: Faults::new(),
            line_start,
            lines: Vec::new(),
            closed_place: None,
        }
    }

    /// Adds a fault. Returns `Err` if an allocation fails; the first fault of a call needs none.
    #[inline]
    pub(crate) fn note(&mut self, fault: Fault<'input>) -> Result<(), AllocError> {
        self.faults.try_push(fault)?;
        Ok(())
    }

    /// Returns whether no input is left.
    #[inline]
    pub fn is_at_end(&self) -> bool {
        self.cursor.peek().is_none()
    }

    /// Returns the index of the next implicit argument, and increments it.
    #[inline]
    pub fn take_curarg(&mut self) -> usize {
        let number = self.curarg;
        self.curarg = number + 1;
        number
    }

    /// Returns the byte range of the current line, up to the next character.
    #[inline]
    pub fn line(&self) -> Range<usize> {
        self.line_start..self.cursor.start()
    }

    /// Reads the longest prefix without braces, which may be empty. Returns `Err` if an allocation
    /// fails; allocates only for lines that end in the prefix.
    #[inline]
    pub(crate) fn string(&mut self) -> Result<&'input str, AllocError> {
        let from = self.cursor.checkpoint();
        self.skip_string()?;
        Ok(self.cursor.text_since(&from))
    }

    /// Reads the next character, and the longest prefix without braces after it, which alone counts
    /// as text for the lines. Returns `Err` if an allocation fails; allocates only for lines that
    /// end in the prefix.
    #[inline]
    pub(crate) fn string_past_brace(&mut self) -> Result<&'input str, AllocError> {
        let from = self.cursor.checkpoint();
        self.cursor.skip_char();
        self.skip_string()?;
        Ok(self.cursor.text_since(&from))
    }

    /// Moves past the longest prefix without braces. In a source literal it does so line by line,
    /// and records the lines that end.
    #[inline(never)]
    fn skip_string(&mut self) -> Result<(), AllocError> {
        if self.cursor.is_source_literal() {
            return self.skip_lines();
        }
        self.cursor.skip_while(Class::Text);
        Ok(())
    }

    /// Moves past the longest prefix without braces of a source literal, line by line, and records
    /// the lines that end.
    #[inline(never)]
    fn skip_lines(&mut self) -> Result<(), AllocError> {
        while let Some(c) = self.cursor.peek() {
            if !Class::Text.passes(c) {
                // Whoever looks at this character need not read the text before it again.
                self.cursor.move_anchor();
                break;
            }
            if c == '\n' {
                self.consume_newline()?;
            } else if self.is_past_indent(c) {
                self.cursor.skip_while(Class::Line);
            } else {
                self.skip_in_line(c);
            }
        }
        Ok(())
    }

    /// Returns whether the next character `c` is past the indentation of the current line. Moves
    /// only the anchor, which no contract shows.
    #[inline(always)]
    fn is_past_indent(&mut self, c: char) -> bool {
        self.cursor.move_anchor();
        self.cursor.is_past_indent(c, self.line_start)
    }

    /// Moves past the newline that comes next in a source literal, and records the line that it
    /// ends.
    #[inline]
    fn consume_newline(&mut self) -> Result<(), AllocError> {
        let newline = self.cursor.consume_place();
        self.lines.try_push(self.line_start..newline.start)?;
        self.line_start = newline.end;
        Ok(())
    }

    /// Moves past the next character of a source literal, which is not a newline. White space at
    /// the start of the line is left out of the line.
    #[inline]
    fn skip_in_line(&mut self, c: char) {
        let place = self.cursor.consume_place();
        if place.start == self.line_start && c.is_whitespace() {
            self.line_start = place.end;
        }
    }
}
