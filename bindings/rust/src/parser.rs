//! The parser with public fields, as an iterator. Each call of `next` makes one call of the proved
//! reader and adds what that found to the fields.
use crate::proved::rustc_parse_format::cursor::Cursor;
use crate::proved::rustc_parse_format::error_list::empty_error;
use crate::proved::rustc_parse_format::messages::set_error;
use crate::proved::rustc_parse_format::parser::lookahead::Lookahead;
use crate::proved::rustc_parse_format::reader::Reader;
use crate::proved::rustc_parse_format::source::{quote_offset, source_of};
use crate::shim::alloc::answer;
use crate::{ParseError, ParseMode, Piece};
use alloc::string::String;
use alloc::vec::Vec;
use core::ops::Range;

/// A parser of a format string: an iterator over its pieces.
///
/// The grammar is that of the documentation of `std::fmt`, as rustc's parser reads it. An error in
/// the input is added to `errors`, and the parser goes on after it. `next` returns `None` at the
/// end of the input, and also at a `}` that closes nothing, which is an error in the input; the
/// next call then goes on after that, so the iterator is not fused. An allocation failure aborts,
/// as elsewhere in Rust.
///
/// A span is a byte range in the source: in the snippet, if that is the source literal of the
/// input, and otherwise in a literal that has the input, as it is, after its opening quote.
///
/// ```
/// use dephungo::{ArgumentNamed, ParseMode, Parser, Piece};
///
/// let mut parser = Parser::new("{x} {", None, None, false, ParseMode::Format);
/// let Some(Piece::NextArgument(argument)) = parser.next() else { panic!() };
/// assert_eq!((argument.position, argument.position_span), (ArgumentNamed("x"), 2..3));
/// assert_eq!(parser.next(), Some(Piece::Lit(" ")));
/// parser.next();
/// assert_eq!(parser.errors[0].description, "expected `}` but string was terminated");
/// ```
pub struct Parser<'input> {
    mode: ParseMode,
    /// The proved reader. Between two calls it holds nothing that it found. Its `curarg` and
    /// whether it reads a source literal are set from the fields here before each call.
    pub(crate) reader: Reader<'input>,
    /// Whether the faults of a call stay in the reader, and no errors are made of them.
    pub(crate) keeps_faults: bool,
    /// The errors in the input so far. An error about a raw identifier, a flag after the type `?`,
    /// or a known mistake where a closing brace is missing is put before all earlier ones; each
    /// other error is put after them.
    pub errors: Vec<ParseError>,
    /// The index of the next implicit argument.
    pub curarg: usize,
    /// The byte ranges in the source of the placeholders that a closing brace closed, from brace to
    /// brace. Nothing is added without a source literal.
    pub arg_places: Vec<Range<usize>>,
    /// Whether the snippet is the source literal of the input. After it is set to false, nothing
    /// more is added to `arg_places` and `line_spans`.
    pub is_source_literal: bool,
    /// The byte ranges in the source of the lines of a source literal, each without its newline and
    /// its indent.
    pub line_spans: Vec<Range<usize>>,
}

impl<'input> Parser<'input> {
    /// Creates a parser at the start of an input.
    ///
    /// `style` is `None` for an ordinary string literal, and `Some` of the number of hashes for a
    /// raw one. `snippet` is the source text that the input should come from, if it is known.
    /// `appended_newline` is whether a newline was appended to the input that is not in the source.
    #[inline]
    pub fn new(
        input: &'input str,
        style: Option<usize>,
        snippet: Option<String>,
        appended_newline: bool,
        mode: ParseMode,
    ) -> Self {
        let source = source_of(input, style, snippet, appended_newline);
        let is_source_literal = source.is_literal;
        let cursor = Cursor::new(source, Lookahead::new(input));
        Parser {
            mode,
            reader: Reader::new(cursor, quote_offset(style)),
            keeps_faults: false,
            errors: Vec::new(),
            curarg: 0,
            arg_places: Vec::new(),
            is_source_literal,
            line_spans: Vec::new(),
        }
    }

    /// Returns the next character without reading it: its byte range in the source, its byte offset
    /// in the input, and the character. Returns `None` at the end of the input.
    pub fn peek(&self) -> Option<(Range<usize>, usize, char)> {
        self.reader.cursor.peek_place()
    }

    /// Returns the character after the next one without reading it: its byte range in the source,
    /// its byte offset in the input, and the character. Returns `None` if there is none.
    pub fn peek_ahead(&self) -> Option<(Range<usize>, usize, char)> {
        self.reader.cursor.peek_place_ahead()
    }

    /// Moves the lines that ended in a call to `line_spans`. If that is empty, the vectors are
    /// swapped.
    #[inline(never)]
    fn add_lines(&mut self) {
        if self.line_spans.is_empty() {
            core::mem::swap(&mut self.line_spans, &mut self.reader.lines);
        } else {
            self.line_spans.append(&mut self.reader.lines);
        }
    }

    /// Adds an error for each fault that a call found, at the start or the end of the list. The
    /// first error makes room for four, as a growing list does, but by fewer steps.
    #[inline(never)]
    fn add_errors(&mut self) {
        if self.errors.capacity() == 0 {
            self.errors = Vec::with_capacity(4);
        }
        let mut index = 0;
        while let Some(fault) = self.reader.faults.get(index) {
            let at = if fault.is_front() {
                0
            } else {
                self.errors.len()
            };
            self.errors.insert(at, empty_error());
            answer(set_error(&mut self.errors[at], fault));
            index += 1;
        }
        self.reader.faults.clear();
    }

    /// Makes a call of a parser whose `is_source_literal` has been changed. It looks for the place
    /// in the literal where the call ends, which the call itself does only if it is `true`: so
    /// [`Parser::peek`] reads the literal only from there.
    #[cold]
    #[inline(never)]
    fn next_switched(&mut self) -> Option<Piece<'input>> {
        let is_literal = self.reader.cursor.source.is_literal;
        self.reader.cursor.source.is_literal = self.is_source_literal;
        let piece = self.next();
        self.reader.cursor.move_anchor();
        self.reader.cursor.source.is_literal = is_literal;
        piece
    }

    /// Adds the last line of a source literal, unless it is already in the list.
    fn end_line(&mut self) {
        if self.is_source_literal {
            let line = self.reader.line();
            if self.line_spans.last() != Some(&line) {
                self.line_spans.push(line);
            }
        }
    }
}

impl<'input> Iterator for Parser<'input> {
    type Item = Piece<'input>;

    fn next(&mut self) -> Option<Piece<'input>> {
        let reader = &mut self.reader;
        if reader.cursor.source.is_literal != self.is_source_literal {
            return self.next_switched();
        }
        reader.curarg = self.curarg;
        if reader.is_at_end() {
            self.end_line();
            return None;
        }
        // (by its type: the method takes the allocator too where it is extracted from)
        let piece = answer(Reader::piece(reader, self.mode));
        self.curarg = reader.curarg;
        if self.reader.closed_place.is_some() {
            self.arg_places.extend(self.reader.closed_place.take());
        }
        if !self.reader.lines.is_empty() {
            self.add_lines();
        }
        if !self.reader.faults.is_empty() && !self.keeps_faults {
            self.add_errors();
        }
        piece
    }
}
