//! The faults of a string literal for the one who wrote it: [`draw`] draws an error under its
//! source, as rustc does, and [`fix`] applies the edits that the suggestions of faults have. A
//! [`Fault`] is what an error is made of, with the [`id`](Fault::id) of its kind.
use crate::proved::drawn_faults::draw as draw_in;
use crate::proved::fault_fixes::{edits as edits_in, errors_of as errors_of_in, fix as fix_in};
use crate::shim::alloc::answer;
use crate::shim::parser::Parser;
use crate::{Argument, ParseError, ParseMode};
use alloc::string::String;
use alloc::vec::Vec;
use core::fmt::{self, Display, Formatter};

pub use crate::proved::drawn_lines::{Picture, WIDTH};
pub use crate::proved::fault_fixes::{Edit, FixedLiteral};
pub use crate::proved::rustc_parse_format::Fault;
pub use crate::shim::parser::error_of;

/// Returns the text that shows an error of a literal of this mode under its source, as rustc 1.95
/// draws it, in its colours if the picture has them. The spans of the error are byte ranges of the
/// literal: its parser had this literal as its snippet, and that was the source literal.
///
/// From top to bottom: what the error is, and its path, line and column, which counts characters;
/// the lines with labels, each with its number and the signs of the labels under it; the note; the
/// suggestion, if one is made in this mode (see [`edits`]); an empty line. A suggestion to remove or
/// to insert something is a second label, one to replace a text shows the old and the new lines.
/// Those for which the arguments of the call are needed, `UsePositional` and
/// `UseRustDebugPrintingMacro`, are left out. Lines that are longer than the width of the picture are
/// cut, but for those of a suggestion. Of two labels each is drawn in the line in which it begins.
/// The columns that a character takes are those of the crate `unicode_width`, of Unicode 18.
///
/// A span that does not fit is drawn too: an offset inside a character means the start of that
/// character, one past the source its end, and a range that ends before it begins is empty.
///
/// ```
/// use dephungo::faults::{draw, errors_of, Picture};
/// use dephungo::ParseMode;
///
/// let source = "println!(\"{a!}\");";
/// let errors = errors_of("{a!}\n", None, Some("\"{a!}\"".to_string()), true, ParseMode::Format);
/// let picture = Picture { path: "a.rs", source, line_start: 1, literal_start: 9, width: 140, colours: false };
/// let wanted = "\
/// error: invalid format string: expected `}`, found `!`
///  --> a.rs:1:13
///   |
/// 1 | println!(\"{a!}\");
///   |           - ^ expected `}` in format string
///   |           |
///   |           because of this opening brace
///   |
///   = note: if you intended to print `{`, you can escape it using `{{`
///
/// ";
/// assert_eq!(draw(ParseMode::Format, &picture, &errors[0]), wanted);
/// ```
///
/// # Panics
///
/// If the source has 2^59 bytes or more, or on 32 bits 2^27 or more. There the numbers of its lines
/// also have to fit `usize`. An allocation failure aborts, as elsewhere in Rust.
#[must_use]
pub fn draw(mode: ParseMode, picture: &Picture<'_>, error: &ParseError) -> String {
    answer(draw_in(mode, picture, error))
}

/// Returns the edits of these errors of a text of this mode, in the order of the source, each
/// after the end of the one before it.
///
/// As from the compiler, there are none in a template of assembly; and where no placeholder may
/// have a specification, none leads to one.
///
/// The errors are in the order of a parser, in which each error that has an edit comes before those
/// of earlier places. An edit that does not start after the end of the one before it is left out.
/// An allocation failure aborts, as elsewhere in Rust.
///
/// ```
/// use dephungo::faults::{edits, errors_of};
/// use dephungo::ParseMode;
///
/// let errors = errors_of("{r#a}{b?}", None, None, false, ParseMode::Format);
/// let found = edits(ParseMode::Format, &errors);
/// assert_eq!((found[0].span.clone(), found[0].text), (2..4, ""));
/// assert_eq!((found[1].span.clone(), found[1].text), (8..8, ":"));
/// ```
#[must_use]
pub fn edits(mode: ParseMode, errors: &[ParseError]) -> Vec<Edit<'_>> {
    answer(edits_in(mode, errors))
}

/// Returns the errors of all calls of a parser up to the end of an input, in its order. The
/// arguments are those of [`Parser::new`](crate::Parser::new). An allocation failure aborts, as
/// elsewhere in Rust.
///
/// ```
/// use dephungo::faults::errors_of;
/// use dephungo::ParseMode;
///
/// let errors = errors_of("{}}", None, None, false, ParseMode::Format);
/// assert_eq!(errors[0].description, "unmatched `}` found");
/// ```
#[must_use]
pub fn errors_of(
    input: &str,
    style: Option<usize>,
    snippet: Option<String>,
    appended_newline: bool,
    mode: ParseMode,
) -> Vec<ParseError> {
    answer(errors_of_in(input, style, snippet, appended_newline, mode))
}

/// Returns the faults of all calls of a parser up to the end of an input, in the order in which they
/// are found. The arguments are those of [`Parser::new`](crate::Parser::new). An allocation failure
/// aborts, as elsewhere in Rust.
///
/// In the list of [`errors_of`] the error of each fault comes before those of all earlier faults if
/// [`Fault::is_front`] says so, and otherwise after them.
///
/// ```
/// use dephungo::faults::faults_of;
/// use dephungo::ParseMode;
///
/// let faults = faults_of("{r#a} {b", None, None, false, ParseMode::Format);
/// let ids: Vec<&str> = faults.iter().map(|fault| fault.id()).collect();
/// assert_eq!(ids, ["raw-identifier", "missing-closing-brace"]);
/// ```
#[must_use]
pub fn faults_of(
    input: &str,
    style: Option<usize>,
    snippet: Option<String>,
    appended_newline: bool,
    mode: ParseMode,
) -> Vec<Fault<'_>> {
    let parser = Parser::new(input, style, snippet, appended_newline, mode);
    let (mut parser, mut faults) = (answer(parser), Vec::new());
    let mut argument = Argument::default();
    while !parser.is_at_end() {
        answer(parser.next_with_faults(&mut argument, &mut faults));
    }
    faults
}

/// Returns the source literal of an input with the edits that its faults suggest, and the text with
/// the same edits, which the literal then stands for. Fewer calls of a parser over it find a fault,
/// and each of these faults the input has too.
///
/// The edits of all faults are made in a round, and then those that the result suggests, in at most
/// eight rounds. Of the literals that these rounds make and that have no new fault, the result is the
/// one in which the fewest calls find a fault, and the earliest of several with as few. Faults are
/// compared by their kinds, as [`Fault::id`] names them.
///
/// Returns `None` if there is no such literal: if there is no edit, if all lead to new faults, or if
/// the snippet is not the source literal of the input, so that no edit is made in a foreign literal.
/// The arguments are those of [`Parser::new`](crate::Parser::new). An allocation failure aborts, as
/// elsewhere in Rust.
///
/// ```
/// use dephungo::faults::fix;
/// use dephungo::ParseMode;
///
/// let fixed = fix("{a?}", None, r#""{\x61?}""#, false, ParseMode::Format).unwrap();
/// assert_eq!(fixed.snippet, r#""{\x61:?}""#);
/// assert_eq!(fixed.text, "{a:?}");
/// ```
#[must_use]
pub fn fix(
    input: &str,
    style: Option<usize>,
    snippet: &str,
    appended_newline: bool,
    mode: ParseMode,
) -> Option<FixedLiteral> {
    answer(fix_in(input, style, snippet, appended_newline, mode))
}

/// Writes the description of the fault's error.
impl Display for Fault<'_> {
    fn fmt(&self, out: &mut Formatter<'_>) -> fmt::Result {
        out.pad(&error_of(self).description)
    }
}

#[cfg(feature = "std")]
impl std::error::Error for Fault<'_> {}
