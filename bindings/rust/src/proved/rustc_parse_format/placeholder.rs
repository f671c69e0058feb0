//! Reads a placeholder after its opening brace: its position and its specification.

// Extracted from crates/rustc_parse_format/src/placeholder.rt by tools/extract: not to be edited.
// That source has the contracts, and is proved. That this text means the same is only tested.

use crate::proved::rustc_parse_format::faults::Fault;
use crate::proved::rustc_parse_format::reader::Reader;
use crate::proved::rustc_parse_format::types::{wants_names, Argument, ParseMode, Position};
use crate::shim::alloc::AllocError;

impl<'input> Reader<'input> {
    /// Reads a word that begins with `r#`, and returns it without that prefix; such a raw
    /// identifier is a fault. If no word comes after the `r#`, reads and returns the `r` alone.
    #[inline]
    fn prefixed_word(&mut self) -> Result<&'input str, AllocError> {
        let from = self.cursor.start();
        let front = self.cursor.checkpoint();
        self.cursor.skip_char();
        if !self.cursor.is_word_ahead() {
            return Ok(self.cursor.text_since(&front));
        }
        let prefix = from..self.cursor.stop();
        self.cursor.skip_char();
        let word = self.word()?;
        let span = from..self.cursor.start();
        self.note(Fault::RawIdentifier(span, prefix))?;
        Ok(word)
    }

    /// Reads the position, an integer or else a word, which may be raw, into `slot`, which is still
    /// implicit. Reads nothing if there is neither.
    #[inline(always)]
    fn position(&mut self, slot: &mut Position<'input>) -> Result<(), AllocError> {
        if self.cursor.is_digit_next() {
            let number = self.integer()?;
            *slot = Position::ArgumentIs(usize::from(number));
        } else if self.cursor.is_raw_prefix_next() {
            let name = self.prefixed_word()?;
            *slot = Position::ArgumentNamed(name);
        } else if self.cursor.is_word_next() {
            let name = self.word()?;
            *slot = Position::ArgumentNamed(name);
        }
        Ok(())
    }

    /// Returns whether the next character is a `}` or a `:`, so that there is no position.
    #[inline]
    fn has_no_position(&self) -> bool {
        matches!(self.cursor.peek(), Some('}' | ':'))
    }

    /// Reads the position and the white space after it into `argument`, whose position is still
    /// implicit, and sets their byte range. Returns `Err` if an allocation fails. In a mode that
    /// allows only names, anything but a name is a fault.
    #[inline(always)]
    fn spaced_position(
        &mut self,
        mode: ParseMode,
        argument: &mut Argument<'input>,
    ) -> Result<(), AllocError> {
        let start = self.cursor.start();
        let mut end = start;
        if !self.has_no_position() {
            self.position(&mut argument.position)?;
            self.cursor.ws();
            end = self.cursor.start();
        }
        argument.position_span = start..end;
        if wants_names(mode) && !matches!(argument.position, Position::ArgumentNamed(_)) {
            self.note(Fault::Unnamed(start..end))?;
        }
        Ok(())
    }

    /// Gives an implicit position the index of the next implicit argument.
    #[inline]
    fn resolve(&mut self, position: &mut Position<'input>) {
        if let Position::ArgumentImplicitlyIs(_) = position {
            *position = Position::ArgumentImplicitlyIs(self.take_curarg());
        }
    }

    /// Reads a position, white space and a specification into `slot`, whose position is still
    /// implicit and whose format is the default.
    #[inline(always)]
    pub(crate) fn argument(
        &mut self,
        mode: ParseMode,
        slot: &mut Argument<'input>,
    ) -> Result<(), AllocError> {
        self.spaced_position(mode, slot)?;
        self.specification(mode, &mut slot.format)?;
        self.resolve(&mut slot.position);
        Ok(())
    }
}
