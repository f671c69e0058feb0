//! The parser, with the calls by which other extracted modules read it.
use crate::proved::rustc_parse_format::error_list::empty_error;
use crate::proved::rustc_parse_format::faults::Fault;
use crate::proved::rustc_parse_format::messages::set_error;
use crate::proved::rustc_parse_format::types::{NextPiece, PieceKind};
use crate::shim::alloc::{answer, AllocError};
use crate::{Argument, ParseError, ParseMode, Piece};
use alloc::string::String;
use alloc::vec::Vec;
use core::ops::Range;

/// Returns the error of a fault, as a parser has it in its list. An allocation failure aborts, as
/// elsewhere in Rust.
///
/// ```
/// use dephungo::faults::{error_of, faults_of};
/// use dephungo::ParseMode;
///
/// let faults = faults_of("{}}", None, None, false, ParseMode::Format);
/// assert_eq!(error_of(&faults[0]).description, "unmatched `}` found");
/// ```
#[must_use]
pub fn error_of(fault: &Fault<'_>) -> ParseError {
    let mut error = empty_error();
    answer(set_error(&mut error, fault));
    error
}

/// A parser over an input, which reads one piece at a time.
pub struct Parser<'input> {
    /// The parser, which leaves the faults of a call in its reader.
    parser: crate::Parser<'input>,
    /// The errors that come before those of the parser, from the last one to the first. After a call
    /// that returns no piece they are among those: one by one, each would move all others.
    front: Vec<ParseError>,
}

impl<'input> Parser<'input> {
    /// Creates a parser at the start of an input.
    pub fn new(
        input: &'input str,
        style: Option<usize>,
        snippet: Option<String>,
        appended_newline: bool,
        mode: ParseMode,
    ) -> Result<Parser<'input>, AllocError> {
        let mut parser = crate::Parser::new(input, style, snippet, appended_newline, mode);
        parser.keeps_faults = true;
        Ok(Parser {
            parser,
            front: Vec::new(),
        })
    }

    /// Makes errors of the faults of the last call, and returns how many of them come before all
    /// earlier ones. `is_last` is whether it returned no piece.
    fn add_errors(&mut self, is_last: bool) -> usize {
        let faults = &mut self.parser.reader.faults;
        let (mut index, mut front_errors) = (0, 0);
        while let Some(fault) = faults.get(index) {
            let errors = if fault.is_front() {
                front_errors += 1;
                &mut self.front
            } else {
                &mut self.parser.errors
            };
            errors.push(error_of(fault));
            index += 1;
        }
        faults.clear();
        if is_last && !self.front.is_empty() {
            let mut errors = core::mem::take(&mut self.front);
            errors.reverse();
            errors.append(&mut self.parser.errors);
            self.parser.errors = errors;
        }
        front_errors
    }

    /// Returns the next piece, and reads a placeholder into `argument`. The faults stay in the
    /// reader.
    #[inline]
    fn read_into(&mut self, argument: &mut Argument<'input>) -> Option<PieceKind<'input>> {
        self.parser.next().map(|piece| match piece {
            Piece::Lit(text) => PieceKind::Lit(text),
            Piece::NextArgument(read) => {
                *argument = *read;
                PieceKind::NextArgument
            }
        })
    }

    /// Returns whether the snippet is the source literal of the input.
    pub fn is_source_literal(&self) -> bool {
        self.parser.is_source_literal
    }

    /// Returns the next piece, and reads a placeholder into `argument`.
    pub fn next_into(
        &mut self,
        argument: &mut Argument<'input>,
    ) -> Result<NextPiece<'input>, AllocError> {
        let piece = self.read_into(argument);
        let front_errors = self.add_errors(piece.is_none());
        Ok(NextPiece {
            piece,
            front_errors,
        })
    }

    /// Returns the next piece as `next_into` does, but moves the faults of this call to the end of
    /// `faults`, and makes no errors of them.
    #[inline]
    pub fn next_with_faults(
        &mut self,
        argument: &mut Argument<'input>,
        faults: &mut Vec<Fault<'input>>,
    ) -> Result<Option<PieceKind<'input>>, AllocError> {
        let taken = self.read_into(argument);
        self.parser.reader.faults.move_to(faults)?;
        Ok(taken)
    }

    /// Returns whether the whole input was read.
    pub fn is_at_end(&self) -> bool {
        self.parser.reader.is_at_end()
    }

    /// Returns how many bytes of the input were read.
    pub fn position(&self) -> usize {
        self.parser.reader.cursor.position()
    }

    /// Returns the errors of all calls so far, of which the last one returned no piece.
    pub fn errors(&self) -> &[ParseError] {
        &self.parser.errors
    }

    /// Returns the places of the placeholders that a brace closed.
    pub fn arg_places(&self) -> &[Range<usize>] {
        &self.parser.arg_places
    }

    /// Returns the index that the next implicit argument takes.
    pub fn curarg(&self) -> usize {
        self.parser.curarg
    }

    /// Takes the errors of all calls so far out of the parser.
    pub fn take_errors(&mut self) -> Vec<ParseError> {
        self.add_errors(true);
        core::mem::take(&mut self.parser.errors)
    }
}

/// The pieces of an input, and the parser after them.
pub struct Reading<'input> {
    /// The pieces, in order.
    pub pieces: Vec<Piece<'input>>,
    /// The parser after the pieces.
    pub parser: Parser<'input>,
}

/// Reads an input up to the first call that returns no piece.
pub fn read_all<'input>(
    input: &'input str,
    style: Option<usize>,
    snippet: Option<String>,
    appended_newline: bool,
    mode: ParseMode,
) -> Result<Reading<'input>, AllocError> {
    let mut parser = Parser::new(input, style, snippet, appended_newline, mode)?;
    let mut pieces = Vec::new();
    while let Some(piece) = parser.parser.next() {
        parser.add_errors(false);
        pieces.push(piece);
    }
    parser.add_errors(true);
    Ok(Reading { pieces, parser })
}
