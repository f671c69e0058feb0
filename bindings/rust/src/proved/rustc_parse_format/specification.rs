//! Reads the part of a placeholder after its colon: a format specification, the modifier of inline
//! assembly, or the text of a diagnostic.

// Extracted from crates/rustc_parse_format/src/specification.rt by tools/extract: not to be edited.
// That source has the contracts, and is proved. That this text means the same is only tested.

use crate::proved::rustc_parse_format::characters::first;
use crate::proved::rustc_parse_format::faults::Fault;
use crate::proved::rustc_parse_format::reader::Reader;
use crate::proved::rustc_parse_format::types::{
    wants_names, Alignment, DebugHex, FormatSpec, ParseMode, Sign,
};
use crate::shim::alloc::AllocError;

impl<'input> Reader<'input> {
    /// Reads the fill, a character with an alignment after it, into `format`, which has none yet.
    /// Reads nothing if there is no fill.
    #[inline(always)]
    fn fill(&mut self, format: &mut FormatSpec<'input>) {
        if let (Some(c), Some('<' | '>' | '^')) = (self.cursor.peek(), self.cursor.peek_ahead()) {
            format.fill = Some(c);
            format.fill_span = Some(self.cursor.start()..self.cursor.stop());
            self.cursor.skip_char();
        }
    }

    /// Reads the alignment, if there is one, into `format`, which has none yet.
    #[inline(always)]
    fn alignment(&mut self, format: &mut FormatSpec<'input>) {
        format.align = match self.cursor.peek() {
            Some('<') => Alignment::AlignLeft,
            Some('>') => Alignment::AlignRight,
            Some('^') => Alignment::AlignCenter,
            _ => return,
        };
        self.cursor.skip_char();
    }

    /// Reads the sign flag, if there is one, into `format`, which has none yet.
    #[inline(always)]
    fn sign(&mut self, format: &mut FormatSpec<'input>) {
        let sign = match self.cursor.peek() {
            Some('+') => Sign::Plus,
            Some('-') => Sign::Minus,
            _ => return,
        };
        format.sign = Some(sign);
        self.cursor.skip_char();
    }

    /// Reads the flag `#`, if it is there, and sets in `format` whether it is.
    #[inline]
    fn alternate(&mut self, format: &mut FormatSpec<'input>) {
        format.alternate = self.cursor.consume('#');
    }

    /// Reads a word into `format` as its type, which is still empty, and sets its span if the word
    /// is not empty.
    #[inline(always)]
    fn word_type(&mut self, format: &mut FormatSpec<'input>) -> Result<(), AllocError> {
        if !self.cursor.is_word_next() {
            return Ok(());
        }
        let start = self.cursor.start();
        let word = self.word()?;
        format.ty = word;
        format.ty_span = Some(start..self.cursor.start());
        Ok(())
    }

    /// Reads the type `?`. A flag after it is a fault, and is not read.
    #[inline]
    fn debug_type(&mut self) -> Result<(), AllocError> {
        let Some(flag @ ('#' | 'x' | 'X')) = self.cursor.peek_ahead() else {
            self.cursor.skip_char();
            return Ok(());
        };
        let start = self.cursor.start();
        self.cursor.skip_char();
        let (from, to) = (self.cursor.start(), self.cursor.stop());
        self.note(Fault::LateFlag(flag, from..to, start..to))
    }

    /// Reads the type, as in the grammar of `std::fmt`, into `format`, whose type is still empty.
    #[inline(always)]
    fn type_part(&mut self, format: &mut FormatSpec<'input>) -> Result<(), AllocError> {
        let (case, letter) = match self.cursor.peek() {
            Some('x') => (DebugHex::Lower, "x"),
            Some('X') => (DebugHex::Upper, "X"),
            Some('?') => {
                format.ty = "?";
                return self.debug_type();
            }
            _ => return self.word_type(format),
        };
        self.cursor.skip_char();
        if !self.cursor.consume('?') {
            format.ty = letter;
            return Ok(());
        }
        format.debug_hex = Some(case);
        format.ty = "?";
        Ok(())
    }

    /// Reads a format specification, as in the grammar of `std::fmt`, into `format`, which is still
    /// the default.
    #[inline(never)]
    fn format(&mut self, format: &mut FormatSpec<'input>) -> Result<(), AllocError> {
        self.fill(format);
        self.alignment(format);
        self.sign(format);
        self.alternate(format);
        self.width(format)?;
        self.precision(format)?;
        self.type_part(format)
    }

    /// Reads a colon and the text of a diagnostic into `format`, which is still the default. The
    /// span of the text includes the colon. Text is a fault in a mode that allows only names.
    #[inline]
    fn diagnostic(
        &mut self,
        mode: ParseMode,
        format: &mut FormatSpec<'input>,
    ) -> Result<(), AllocError> {
        let start = self.cursor.start();
        self.cursor.skip_char();
        let ty = self.string()?;
        let end = self.cursor.start();
        format.ty = ty;
        format.ty_span = Some(start..end);
        if wants_names(mode) && first(ty).is_some() {
            return self.note(Fault::TextAfterColon(start..end));
        }
        Ok(())
    }

    /// Reads a colon and the part that `mode` has after it into `format`, which is still the
    /// default. Reads nothing if the next character is not a colon.
    #[inline(always)]
    pub(crate) fn specification(
        &mut self,
        mode: ParseMode,
        format: &mut FormatSpec<'input>,
    ) -> Result<(), AllocError> {
        self.cursor.steps_are_few();
        if !self.cursor.is_next(':') {
            return Ok(());
        }
        match mode {
            ParseMode::Format => {
                self.cursor.skip_char();
                self.format(format)
            }
            ParseMode::InlineAsm => {
                self.cursor.skip_char();
                self.word_type(format)
            }
            ParseMode::Diagnostic | ParseMode::DiagnosticNamed => self.diagnostic(mode, format),
        }
    }
}
