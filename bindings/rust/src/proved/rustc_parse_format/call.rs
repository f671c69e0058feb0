//! One call of the parser: it reads a placeholder or a text, and adds faults as they are found.

// Extracted from crates/rustc_parse_format/src/call.rt by tools/extract: not to be edited.
// That source has the contracts, and is proved. That this text means the same is only tested.

use crate::proved::rustc_parse_format::faults::Fault;
use crate::proved::rustc_parse_format::reader::Reader;
use crate::proved::rustc_parse_format::types::{Argument, ParseMode, Piece};
use crate::shim::alloc::AllocError;
use crate::shim::prelude::*;
use core::ops::Range;

impl<'input> Reader<'input> {
    /// Adds the fault that no brace closes `argument`, whose opening brace has the byte range
    /// `opening`.
    #[inline]
    fn missing_closing_brace(
        &mut self,
        argument: &Argument<'input>,
        opening: Range<usize>,
    ) -> Result<(), AllocError> {
        let (next, at) = (self.cursor.peek(), self.cursor.start());
        match (&argument.format.fill, &argument.format.fill_span) {
            (Some('}'), Some(fill)) => {
                self.note(Fault::FillBrace(next, at..at, fill.start..fill.end))
            }
            _ => self.note(Fault::MissingBrace(next, at..at, opening)),
        }
    }

    /// Moves past the closing brace of the placeholder that starts at the byte offset `start`. In a
    /// source literal, records the byte range of the placeholder.
    #[inline]
    fn consume_closing_brace(&mut self, start: usize) {
        if self.cursor.is_source_literal() {
            let brace = self.cursor.consume_place();
            self.closed_place = Some(start..brace.end);
        } else {
            self.cursor.skip_char();
        }
    }

    /// Moves past the closing brace. If it is missing, adds that fault and recovers. The opening
    /// brace has the byte range `opening`.
    #[inline]
    fn closing_brace(
        &mut self,
        mode: ParseMode,
        argument: &Argument<'input>,
        opening: Range<usize>,
    ) -> Result<(), AllocError> {
        if self.cursor.is_next('}') {
            self.consume_closing_brace(opening.start);
            return Ok(());
        }
        self.missing_closing_brace(argument, opening.start..opening.end)?;
        self.recover(mode, argument, opening)
    }

    /// Reads a placeholder, with its opening brace, into `slot`, whose position is still
    /// implicit and whose format is the default.
    #[inline]
    pub(crate) fn placeholder(
        &mut self,
        mode: ParseMode,
        slot: &mut Argument<'input>,
    ) -> Result<(), AllocError> {
        let opening = self.cursor.consume_place();
        self.argument(mode, slot)?;
        self.cursor.ws();
        self.closing_brace(mode, slot, opening)?;
        Ok(())
    }

    /// Reads a text, where no placeholder begins. Returns `None` at the end of the input and after
    /// a closing brace that closes nothing, which is a fault.
    #[inline]
    pub(crate) fn text(&mut self) -> Result<Option<&'input str>, AllocError> {
        let Some(c) = self.cursor.peek() else {
            return Ok(None);
        };
        if c != '{' && c != '}' {
            let text = self.string()?;
            return Ok(Some(text));
        }
        if c == '{' || self.cursor.is_ahead('}') {
            self.cursor.skip_char();
            let text = self.string_past_brace()?;
            return Ok(Some(text));
        }
        let span = self.cursor.consume_place();
        self.note(Fault::UnmatchedBrace(span))?;
        Ok(None)
    }

    /// Reads the next piece: a placeholder, whose argument is allocated first, or text. Returns
    /// `None` at the end of the input and after a closing brace that closes nothing.
    #[inline(always)]
    pub(crate) fn piece(&mut self, mode: ParseMode) -> Result<Option<Piece<'input>>, AllocError> {
        if self.cursor.opens_placeholder() {
            let mut argument = Box::new(Argument::default());
            self.placeholder(mode, &mut argument)?;
            return Ok(Some(Piece::NextArgument(argument)));
        }
        let text = self.text()?;
        match text {
            Some(text) => Ok(Some(Piece::Lit(text))),
            None => Ok(None),
        }
    }
}
