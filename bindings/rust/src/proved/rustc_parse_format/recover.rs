//! Recovery from a missing closing brace, by the character found in its place.

// Extracted from crates/rustc_parse_format/src/recover.rt by tools/extract: not to be edited.
// That source has the contracts, and is proved. That this text means the same is only tested.

use crate::proved::rustc_parse_format::faults::Fault;
use crate::proved::rustc_parse_format::reader::Reader;
use crate::proved::rustc_parse_format::types::{Argument, ParseMode, Position};
use crate::shim::alloc::AllocError;
use core::ops::Range;

/// Returns the fault of the character `sign` in place of a closing brace, or `None` if it has none
/// of its own. The character after it is `next`, and the opening brace has the byte range
/// `opening`.
#[inline]
fn sign_fault<'input>(
    sign: char,
    next: char,
    span: Range<usize>,
    opening: Range<usize>,
) -> Option<Fault<'input>> {
    match (sign, next) {
        ('<' | '>' | '^', _) => Some(Fault::LateAlign(sign, span)),
        (',', _) => Some(Fault::Grouping(span, opening)),
        ('+', _) => Some(Fault::LateSign(span)),
        ('=', '}') => Some(Fault::DebugPrint(span, opening)),
        ('?', '}') => Some(Fault::MissingColon(span)),
        _ => None,
    }
}

/// Returns whether `sign` is the dot of a field access: a dot after an argument that is only a
/// name.
#[inline]
fn begins_field(sign: char, argument: &Argument<'_>) -> bool {
    sign == '.' && argument.is_identifier()
}

/// Returns whether `sign` is a `?` that no closing brace follows.
#[inline]
fn begins_late_debug(sign: char, next: char) -> bool {
    sign == '?' && next != '}'
}

impl<'input> Reader<'input> {
    /// Moves past the next character, which is `sign`, and adds its fault. Changes nothing if it
    /// has none of its own.
    #[inline]
    fn suggest_sign(
        &mut self,
        sign: char,
        next: char,
        opening: Range<usize>,
    ) -> Result<(), AllocError> {
        let span = self.cursor.start()..self.cursor.stop();
        let Some(fault) = sign_fault(sign, next, span, opening) else {
            return Ok(());
        };
        self.cursor.skip_char();
        self.note(fault)
    }

    /// Moves past a `?`. If a colon follows, also moves past that and the word after it, which may
    /// be empty, and adds a fault.
    #[inline]
    fn suggest_format_debug(&mut self) -> Result<(), AllocError> {
        let span = self.cursor.start()..self.cursor.stop();
        self.cursor.skip_char();
        if !self.cursor.consume(':') {
            return Ok(());
        }
        if !self.cursor.is_word_next() {
            return self.note(Fault::LateDebug("", span));
        }
        let word = self.word()?;
        self.note(Fault::LateDebug(word, span))
    }

    /// Moves past a `.`, the field after it, and a closing brace directly after that. With the
    /// brace, a field that is a name or a number is a fault. The argument starts at the byte offset
    /// `from`.
    #[inline]
    fn suggest_positional_arg_instead_of_captured_arg(
        &mut self,
        mode: ParseMode,
        from: usize,
    ) -> Result<(), AllocError> {
        self.cursor.skip_char();
        let mut field = Argument::default();
        self.argument(mode, &mut field)?;
        let span = from..field.position_span.end;
        if !self.cursor.consume('}') {
            return Ok(());
        }
        match field.position {
            Position::ArgumentNamed(_) => self.note(Fault::FieldAccess(span)),
            Position::ArgumentIs(_) => self.note(Fault::TupleIndex(span)),
            Position::ArgumentImplicitlyIs(_) => Ok(()),
        }
    }

    /// Recovers from a missing closing brace of `argument`, by the next character. The opening
    /// brace has the byte range `opening`.
    #[inline(never)]
    pub(crate) fn recover(
        &mut self,
        mode: ParseMode,
        argument: &Argument<'input>,
        opening: Range<usize>,
    ) -> Result<(), AllocError> {
        let Some(sign) = self.cursor.peek() else {
            return Ok(());
        };
        let Some(next) = self.cursor.peek_ahead() else {
            return Ok(());
        };
        if begins_field(sign, argument) {
            return self.suggest_positional_arg_instead_of_captured_arg(
                mode,
                argument.position_span.start,
            );
        }
        if begins_late_debug(sign, next) {
            return self.suggest_format_debug();
        }
        self.suggest_sign(sign, next, opening)
    }
}
