//! Reads integers, words and counts, and the parts of a format specification that are made of them:
//! its width and its precision.

// Extracted from crates/rustc_parse_format/src/counts.rt by tools/extract: not to be edited.
// That source has the contracts, and is proved. That this text means the same is only tested.

use crate::proved::rustc_parse_format::faults::Fault;
use crate::proved::rustc_parse_format::reader::Reader;
use crate::proved::rustc_parse_format::types::{Count, FormatSpec};
use crate::shim::alloc::AllocError;

impl<'input> Reader<'input> {
    /// Reads the ASCII digits at the cursor, if any, and returns their value modulo 65536. A value
    /// above 65535 is a fault, whose span includes the character after the digits.
    #[inline(always)]
    pub(crate) fn integer(&mut self) -> Result<u16, AllocError> {
        let (number, overflow) = self.cursor.number();
        if let Some((digits, span)) = overflow {
            self.note(Fault::TooLarge(digits, span))?;
        }
        Ok(number)
    }

    /// Reads the word that begins at the cursor. The word `_` is a fault.
    #[inline(always)]
    pub(crate) fn word(&mut self) -> Result<&'input str, AllocError> {
        let (word, underscore) = self.cursor.word();
        if let Some(span) = underscore {
            self.note(Fault::Underscore(span))?;
        }
        Ok(word)
    }

    /// Reads a name and the `$` after it into `slot`, which is still `CountImplied`. If there is no
    /// `$`, goes back to the start of the word, but keeps its fault.
    #[inline(always)]
    fn named_count(&mut self, slot: &mut Count<'input>) -> Result<(), AllocError> {
        let front = self.cursor.checkpoint();
        let start = self.cursor.start();
        let name = self.word()?;
        let span = start..self.cursor.start();
        if self.cursor.consume('$') {
            *slot = Count::CountIsName(name, span);
            return Ok(());
        }
        self.cursor.rewind(front);
        Ok(())
    }

    /// Reads a count, as in the grammar of `std::fmt`, into `slot`, which is still `CountImplied`:
    /// a number, the index or the name of an argument and a `$`, or nothing.
    #[inline(always)]
    pub(crate) fn count(&mut self, slot: &mut Count<'input>) -> Result<(), AllocError> {
        if self.cursor.is_digit_next() {
            let number = self.integer()?;
            if self.cursor.consume('$') {
                *slot = Count::CountIsParam(usize::from(number));
                return Ok(());
            }
            *slot = Count::CountIs(number);
            return Ok(());
        }
        if self.cursor.is_word_next() {
            return self.named_count(slot);
        }
        Ok(())
    }

    /// Reads the count of a width and its span into `format`, which has no width yet.
    #[inline(always)]
    fn width_count(&mut self, format: &mut FormatSpec<'input>) -> Result<(), AllocError> {
        let start = self.cursor.start();
        self.count(&mut format.width)?;
        match format.width {
            Count::CountImplied => Ok(()),
            _ => {
                format.width_span = Some(start..self.cursor.start());
                Ok(())
            }
        }
    }

    /// Reads the width, as in the grammar of `std::fmt`, into `format`, which has none yet. A
    /// leading `0` is a flag, unless a `$` follows it: then it is the index of an argument.
    #[inline(always)]
    pub(crate) fn width(&mut self, format: &mut FormatSpec<'input>) -> Result<(), AllocError> {
        if !self.cursor.is_next('0') {
            return self.width_count(format);
        }
        if !self.cursor.is_ahead('$') {
            self.cursor.skip_char();
            format.zero_pad = true;
            return self.width_count(format);
        }
        let start = self.cursor.start();
        self.cursor.skip_char();
        format.width = Count::CountIsParam(0);
        format.width_span = Some(start..self.cursor.stop());
        self.cursor.skip_char();
        Ok(())
    }

    /// Reads a dot and the precision after it, which may be missing, into `format`, which has none
    /// yet. Reads nothing if the next character is not a dot. A `*` takes the index of the next
    /// implicit argument.
    #[inline(always)]
    pub(crate) fn precision(&mut self, format: &mut FormatSpec<'input>) -> Result<(), AllocError> {
        self.cursor.steps_are_few();
        if !self.cursor.is_next('.') {
            return Ok(());
        }
        let start = self.cursor.start();
        self.cursor.skip_char();
        if self.cursor.is_next('*') {
            let number = self.take_curarg();
            self.cursor.skip_char();
            format.precision = Count::CountIsStar(number);
            format.precision_span = Some(start..self.cursor.start());
            return Ok(());
        }
        self.count(&mut format.precision)?;
        format.precision_span = Some(start..self.cursor.start());
        Ok(())
    }
}
