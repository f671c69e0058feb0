//! String literals as they are written in a program: read as format strings ([`Literal`]), the
//! characters that they stand for, with byte ranges, and whether a snippet is the source literal of
//! an input.
use crate::faults::{errors_of, faults_of, fix, Fault, FixedLiteral};
use crate::proved::rustc_parse_format::literal::read_content as read_content_in;
use crate::report::{check, Report};
use crate::shim::alloc::answer;
use crate::tokens::{tokens, Token};
use crate::{ParseError, ParseMode, Parser, Piece};
use alloc::string::ToString;
use alloc::vec::Vec;

pub use crate::proved::format_literal::Literal;
pub use crate::proved::rustc_parse_format::literal::{
    is_source_literal, quoted_content, ContentCharacter,
};

impl<'a> Literal<'a> {
    /// Reads a string literal by the rules of the Rust Reference, `"..."` or `r#"..."#` with any
    /// number of hashes. Its lines end with LF. Returns `None` if it is no such literal: for
    /// example with a prefix `b` or `c`, a suffix, or white space around it. An allocation failure
    /// aborts, as elsewhere in Rust, here and in the other calls.
    ///
    /// ```
    /// use dephungo::literal::Literal;
    /// use dephungo::ParseMode::Format;
    ///
    /// let literal = Literal::new(r##"r#"{r#a} {}"#"##, Format).unwrap();
    /// assert_eq!((literal.text.as_str(), literal.style), ("{r#a} {}", Some(1)));
    /// assert_eq!(literal.faults()[0].id(), "raw-identifier");
    /// assert_eq!(literal.errors()[0].span, 4..7);
    /// assert_eq!(literal.fix().unwrap().snippet, r##"r#"{a} {}"#"##);
    ///
    /// let literal = Literal::new(r#""{\x61} {0} {2}""#, Format).unwrap();
    /// assert_eq!(literal.pieces().len(), 5);
    /// assert_eq!(literal.tokens()[2].span, 2..6);
    /// let report = literal.check(2, &[]);
    /// assert_eq!((report.missing_name, report.missing_index), (vec!["a"], vec![2]));
    /// assert_eq!(report.unused_index, [1]);
    ///
    /// assert!(Literal::new("b\"{}\"", Format).is_none());
    /// ```
    #[must_use]
    pub fn new(snippet: &'a str, mode: ParseMode) -> Option<Literal<'a>> {
        answer(Literal::read(snippet, mode))
    }

    /// Returns the literal with a newline appended to its text, as `println!` appends one. One more
    /// is never appended.
    #[must_use]
    pub fn with_newline(mut self) -> Literal<'a> {
        if !self.appended_newline {
            self.text.push('\n');
            self.appended_newline = true;
        }
        self
    }

    /// Returns a parser at the start of the text.
    #[must_use]
    pub fn parser(&self) -> Parser<'_> {
        let snippet = Some(self.snippet.to_string());
        Parser::new(
            &self.text,
            self.style,
            snippet,
            self.appended_newline,
            self.mode,
        )
    }

    /// Returns the pieces up to the end of the text, or to a `}` that closes nothing.
    #[must_use]
    pub fn pieces(&self) -> Vec<Piece<'_>> {
        self.parser().collect()
    }

    /// Returns the tokens, as [`tokens`] does.
    #[must_use]
    pub fn tokens(&self) -> Vec<Token> {
        let snippet = Some(self.snippet.to_string());
        tokens(
            &self.text,
            self.style,
            snippet,
            self.appended_newline,
            self.mode,
        )
    }

    /// Returns the faults up to the end of the text, in the order in which they are found.
    #[must_use]
    pub fn faults(&self) -> Vec<Fault<'_>> {
        let snippet = Some(self.snippet.to_string());
        faults_of(
            &self.text,
            self.style,
            snippet,
            self.appended_newline,
            self.mode,
        )
    }

    /// Returns the errors up to the end of the text, in the order of a parser.
    #[must_use]
    pub fn errors(&self) -> Vec<ParseError> {
        let snippet = Some(self.snippet.to_string());
        errors_of(
            &self.text,
            self.style,
            snippet,
            self.appended_newline,
            self.mode,
        )
    }

    /// Returns the literal with the edits that its faults suggest, as [`fix`] does. Returns `None`
    /// if there is no such literal.
    #[must_use]
    pub fn fix(&self) -> Option<FixedLiteral> {
        fix(
            &self.text,
            self.style,
            self.snippet,
            self.appended_newline,
            self.mode,
        )
    }

    /// Compares the pieces with the arguments that are given, as [`check`] does. The report has at most
    /// as many unused indices as `positional` says, and at most three missing ones for each placeholder.
    #[must_use]
    pub fn check<'b>(&'b self, positional: usize, names: &[&'b str]) -> Report<'b> {
        check(&self.pieces(), positional, names)
    }
}

/// Returns the characters that a *content* stands for: the text between the quotes of an ordinary
/// string literal. Each character comes with its byte range in the content. Returns `None` if the
/// text is no such content.
///
/// The rules are those of string literals in the Rust Reference. A backslash before a newline
/// stands for nothing, together with the newline and all tabs, newlines, carriage returns and
/// spaces after it. An allocation failure aborts, as elsewhere in Rust.
#[must_use]
pub fn read_content(content: &str) -> Option<Vec<ContentCharacter>> {
    answer(read_content_in(content))
}
