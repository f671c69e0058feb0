//! Rust source text, without a compiler: the faults of the format strings of a file, as rustc 1.95
//! reports them ([`file_faults`]), and the steps to these: the [`tokens`], the [`calls`] of macros
//! that take a format string, and the faults of one call ([`call_faults`]).
//!
//! Nothing is expanded and no name is resolved: a call is found by the name of its macro, even
//! where it is never compiled.
//!
//! ```
//! use dephungo::source::{file_faults, Places, Table};
//!
//! let text = "fn main() {\n    println!(\"{} {}\", x);\n}\n";
//! let places = Places::new(text);
//! for finding in file_faults(text, &Table::standard(), true).findings {
//!     let place = places.place_of(finding.span.start);
//!     let said = format!("{}:{}: {}", place.line, place.column, finding.title);
//!     let title = "2 positional arguments in format string, but there is 1 argument";
//!     assert_eq!(said, format!("2:15: {title}"));
//! }
//! ```
use crate::proved::call_faults::{call_faults as call_faults_in, CallReport as CallReportIn};
use crate::proved::file_fixes::fixes as fixes_in;
use crate::proved::file_inlines::inlines as inlines_in;
use crate::proved::format_calls::{arguments, calls as calls_in, format_string};
use crate::proved::format_calls::{Argument as ArgumentIn, Table as TableIn};
use crate::proved::rust_tokens::tokens as tokens_in;
use crate::proved::rust_trees::{DelimiterBreak, Places as PlacesIn, Source as SourceIn};
use crate::proved::source_lint::file_faults as file_faults_in;
use crate::proved::source_lint::givens::givens;
use crate::proved::source_report::Options;
use crate::shim::alloc::answer;
use crate::Piece;
use alloc::string::String;
use alloc::vec::Vec;
use core::fmt::{self, Debug, Formatter};
use core::ops::Range;

pub use crate::proved::call_faults::{
    CallFault, FormatArgument, FormatString, InvalidReference, Part, Reference,
};
pub use crate::proved::file_fixes::FileFixes;
pub use crate::proved::file_inlines::{CallInlining, FileInlines};
pub use crate::proved::format_calls::{Reason, Row, Rule};
pub use crate::proved::inlined_arguments::Obstacle;
pub use crate::proved::rust_tokens::{Kind, Token};
pub use crate::proved::rust_trees::{BreakKind, FileBreak, Place};
pub use crate::proved::source_report::{CallReading, Edit, Finding, Help, Label, Note, Report};

/// Returns the tokens of a file, with white space and comments, one after the other from its start
/// to its end. An allocation failure aborts, as elsewhere in Rust.
///
/// There is one reading for all editions, that of the newest one: `c"a"` is a C string and `'r#a` a
/// raw lifetime, which before 2021 were two and three tokens. Prefixes and quotes that newer editions
/// only reserve, as in `f"a"` and `#"a"#`, are read as separate tokens. Each character of
/// punctuation is a token. A wrong escape, a wrong digit and the suffix `_` change no token.
///
/// ```
/// use dephungo::source::{tokens, Kind};
///
/// let text = "a(\"b\"u8) // c";
/// let found: Vec<_> = tokens(text).into_iter().map(|it| (it.kind, &text[it.span])).collect();
/// let wanted = [
///     (Kind::Ident, "a"),
///     (Kind::Punct, "("),
///     (Kind::Str, "\"b\"u8"),
///     (Kind::Punct, ")"),
///     (Kind::Whitespace, " "),
///     (Kind::LineComment, "// c"),
/// ];
/// assert_eq!(found, wanted);
/// ```
#[must_use]
pub fn tokens(text: &str) -> Vec<Token> {
    answer(tokens_in(text))
}

/// A text in which finding the place of a byte offset takes no longer if the text is longer.
pub struct Places<'a> {
    text: &'a str,
    places: PlacesIn<'a>,
}

/// Shows the text.
impl Debug for Places<'_> {
    fn fmt(&self, out: &mut Formatter<'_>) -> fmt::Result {
        out.debug_tuple("Places").field(&self.text).finish()
    }
}

impl<'a> Places<'a> {
    /// Reads a text. An allocation failure aborts, as elsewhere in Rust.
    #[must_use]
    pub fn new(text: &'a str) -> Places<'a> {
        Places {
            text,
            places: answer(PlacesIn::new(text)),
        }
    }

    /// Returns the line and the column of a byte offset, as rustc counts them.
    ///
    /// ```
    /// use dephungo::source::Places;
    ///
    /// let place = Places::new("a\r\né b").place_of(6);
    /// assert_eq!((place.line, place.column), (2, 3));
    /// ```
    ///
    /// # Panics
    ///
    /// If no character of the text starts there, and it is not its end.
    #[must_use]
    pub fn place_of(&self, offset: usize) -> Place {
        self.places.place_of(offset)
    }

    /// Returns the line and the column of a byte offset as [`Places::place_of`] does, or `None` if no
    /// character of the text starts there and it is not its end.
    ///
    /// ```
    /// use dephungo::source::Places;
    ///
    /// let places = Places::new("é\nb");
    /// assert_eq!(places.get(4).unwrap().column, 2);
    /// assert_eq!((places.get(1), places.get(5)), (None, None));
    /// ```
    #[must_use]
    pub fn get(&self, offset: usize) -> Option<Place> {
        self.text
            .is_char_boundary(offset)
            .then(|| self.place_of(offset))
    }
}

/// A table of macros that take a format string. Of two with one name the first one counts.
#[derive(Clone, Debug, Eq, PartialEq)]
pub struct Table<'a> {
    table: TableIn<'a>,
}

impl<'a> Table<'a> {
    /// Returns the macros of the standard library. An allocation failure aborts, as elsewhere in
    /// Rust.
    #[must_use]
    pub fn standard() -> Table<'a> {
        Table {
            table: answer(TableIn::standard()),
        }
    }

    /// Returns macros of the crates log, tracing, slog, anyhow and eyre alone. For a table with those
    /// of the standard library too, add each of these rows to [`Table::standard`]. An allocation
    /// failure aborts, as elsewhere in Rust.
    ///
    /// ```
    /// use dephungo::source::Table;
    ///
    /// let mut table = Table::standard();
    /// for row in Table::with_crate_macros().rows() {
    ///     table.add(*row);
    /// }
    /// assert!(table.rows().iter().any(|row| row.name == "println"));
    /// assert!(table.rows().iter().any(|row| row.name == "info"));
    /// ```
    #[must_use]
    pub fn with_crate_macros() -> Table<'a> {
        Table {
            table: answer(TableIn::with_crate_macros()),
        }
    }

    /// Returns the macros in their order: of two with one name the first one counts.
    #[must_use]
    pub fn rows(&self) -> &[Row<'a>] {
        &self.table.rows
    }

    /// Adds a macro in front of the others. An allocation failure aborts, as elsewhere in Rust.
    ///
    /// ```
    /// use dephungo::source::{calls, Row, Rule, Table};
    ///
    /// let mut table = Table::standard();
    /// table.add(Row { name: "say", rule: Rule::Index(1) });
    /// let found = calls("say!(to, \"{}\", x)", &table, true);
    /// assert_eq!(found[0].literal(), Some("\"{}\""));
    /// ```
    pub fn add(&mut self, row: Row<'a>) {
        answer(self.table.add(row));
    }
}

/// A call of a macro: a word, `!` and a pair of delimiters.
#[derive(Clone, Debug, Eq, PartialEq)]
pub struct Call<'a> {
    /// The rule of the macro: with `Rule::Templates` the string literals at the start are templates
    /// of inline assembly.
    pub rule: Rule,
    /// The name of the macro, without the `r#` of a raw identifier.
    pub name: &'a str,
    /// Its byte range, from the name to the closing delimiter.
    pub span: Range<usize>,
    /// The text between the delimiters, split at commas, with the format string.
    pub arguments: Vec<CallArgument<'a>>,
    /// The index of the argument that is the format string or the first template, or why none is
    /// read.
    pub string: Result<usize, Reason>,
}

/// An argument of a call of a macro.
#[derive(Clone, Debug, Eq, PartialEq)]
pub struct CallArgument<'a> {
    /// The argument as [`call_faults`] takes it.
    pub format_argument: FormatArgument<'a>,
    /// Its text, with its name.
    pub text: &'a str,
    /// The byte range of that. It is empty if nothing stands between two commas.
    pub span: Range<usize>,
    /// The byte range of its value, which is the text after the `=` of a name.
    pub value: Range<usize>,
}

impl<'a> Call<'a> {
    /// Returns the literal that is the format string or the first template, with its quotes, or
    /// `None` if none is read.
    #[must_use]
    pub fn literal(&self) -> Option<&'a str> {
        let index = self.string.ok()?;
        self.arguments.get(index).map(|argument| argument.text)
    }

    /// Returns the arguments after the format string, which its placeholders may show, or none if
    /// no format string is read.
    #[must_use]
    pub fn format_arguments(&self) -> &[CallArgument<'a>] {
        match self.string {
            Ok(index) => self.arguments.get(index + 1..).unwrap_or_default(),
            Err(_) => &[],
        }
    }
}

/// Returns an argument of the call of a file.
fn argument_of<'a>(
    text: &'a str,
    source: &SourceIn<'a>,
    argument: &ArgumentIn,
    format_argument: FormatArgument<'a>,
) -> CallArgument<'a> {
    let tokens = &source.tokens()[argument.start..];
    let count = argument.end - argument.start;
    // (of no tokens an empty range in front of what follows)
    let range = |from: usize| match tokens[from..count].last() {
        Some(last) => tokens[from].start..last.start + last.text.len(),
        None => tokens[from].start..tokens[from].start,
    };
    CallArgument {
        format_argument,
        text: &text[range(0)],
        span: range(0),
        value: range(if argument.is_named { 2 } else { 0 }),
    }
}

/// Returns the calls of the macros of a table in a file, in the order of their names, those inside
/// of others too. `is_from_2021` is whether the edition of the file is 2021 or a later one: before
/// that a lone argument of some macros is no format string.
///
/// A call is a word of the table, `!` and a pair of delimiters, with no `$` in front. An allocation
/// failure aborts, as elsewhere in Rust.
#[must_use]
pub fn calls<'a>(text: &'a str, table: &Table<'_>, is_from_2021: bool) -> Vec<Call<'a>> {
    let source = answer(SourceIn::new(text));
    let mut found = Vec::new();
    for call in answer(calls_in(&source, &table.table)) {
        let list = answer(arguments(&source, call.close)).unwrap_or_default();
        let format_arguments = answer(givens(source.tokens(), &list));
        let (name, close) = (source.tokens()[call.name], source.tokens()[call.close]);
        found.push(Call {
            rule: call.rule,
            name: name.text.strip_prefix("r#").unwrap_or(name.text),
            span: name.start..close.start + close.text.len(),
            arguments: list
                .iter()
                .zip(format_arguments)
                .map(|(part, argument)| argument_of(text, &source, part, argument))
                .collect(),
            string: format_string(&source, call.rule, &list, is_from_2021),
        });
    }
    found
}

/// Returns where the delimiters of a file no longer match: the byte offset of one of them. Returns
/// `None` if all match. An allocation failure aborts, as elsewhere in Rust.
///
/// ```
/// use dephungo::source::first_break;
///
/// assert_eq!(first_break("f(a[1])"), None);
/// assert_eq!(first_break("f(a[1)"), Some(5));
/// assert_eq!(first_break("f(a"), Some(1));
/// ```
#[must_use]
pub fn first_break(text: &str) -> Option<usize> {
    let source = answer(SourceIn::new(text));
    let (DelimiterBreak::Unclosed(index) | DelimiterBreak::Unexpected(index)) =
        source.first_break()?;
    source.tokens().get(index).map(|token| token.start)
}

/// Reads a file, and returns the faults of its calls of the macros of a table, as rustc reports
/// them, with how much of each call was read, and where the file breaks. `is_from_2021` is whether the
/// edition of the file is 2021 or a later one.
///
/// Lines may end with LF or CRLF, and a byte order mark may stand at the start. An allocation failure
/// aborts, as elsewhere in Rust.
///
/// ```
/// use dephungo::source::{file_faults, CallReading, Table};
///
/// let text = "fn f() { print!(\"{a?}\"); panic!(x); }";
/// let report = file_faults(text, &Table::standard(), true);
/// assert!(matches!(report.calls[..], [CallReading::Whole, CallReading::Unread(_)]));
/// let finding = &report.findings[0];
/// assert_eq!((finding.id, &text[finding.span.clone()]), ("missing-colon", "?"));
/// ```
#[must_use]
pub fn file_faults(text: &str, table: &Table<'_>, is_from_2021: bool) -> Report {
    answer(file_faults_in(text, &reading_options(table, is_from_2021)))
}

/// Reads a file as [`file_faults`] does, and applies to its faults the suggestions that rustc calls
/// applicable by a machine, but for two: an argument that can be removed, since a comma stays, and the
/// macro `dbg!` in the place of another one.
///
/// Suggestions are applied until none is left, in at most sixteen rounds, or as many as read 16 MiB
/// together. A round mends all raw identifiers, missing colons and late flags of a format string, and
/// one field or index. A round is left out, and is the last, if an edit is outside of the call of its fault, or
/// if the file then breaks, has another number of calls or more faults, has a fault that the round
/// mends, lacks one that it does not, or has other tokens where no edit is. A file that breaks stays
/// as it is. An allocation failure aborts, as elsewhere in Rust.
///
/// ```
/// use dephungo::source::{file_fixes, Table};
///
/// let text = "fn f() { print!(\"{a?} {r#type}\"); print!(\"{self.name}\"); }";
/// let fixes = file_fixes(text, &Table::standard(), true);
/// let fixed = "fn f() { print!(\"{a:?} {type}\"); print!(\"{0}\", self.name); }";
/// assert_eq!(fixes.text.as_deref(), Some(fixed));
/// assert_eq!(fixes.ids, ["missing-colon", "raw-identifier", "field-access"]);
/// assert!(fixes.report.findings.is_empty());
/// ```
#[must_use]
pub fn file_fixes(text: &str, table: &Table<'_>, is_from_2021: bool) -> FileFixes {
    answer(fixes_in(text, &reading_options(table, is_from_2021)))
}

/// How [`file_inlines`] reads and changes a file. By default it is of the edition 2021 or later, and calls
/// with other arguments stay.
#[derive(Clone, Copy, Debug, Eq, PartialEq)]
pub struct InlineOptions {
    /// Whether the edition of the file is 2021 or a later one.
    pub is_from_2021: bool,
    /// Whether a call is changed that has other arguments too: these stay.
    pub allows_mixed: bool,
}

impl Default for InlineOptions {
    fn default() -> Self {
        InlineOptions {
            is_from_2021: true,
            allows_mixed: false,
        }
    }
}

/// Reads a file as [`file_faults`] does, and moves the arguments of its calls that are variables into
/// their format strings. Each call then means what it meant before.
///
/// The file stays as it is if it breaks, or if with the calls inlined it would break, have another
/// number of calls or more faults. An allocation failure aborts, as elsewhere in Rust.
///
/// ```
/// use dephungo::source::{file_inlines, CallInlining, InlineOptions, Obstacle, Table};
///
/// let text = "fn f() { print!(\"{}, {:>w$}\", x, y, w = w); print!(\"{} {}\", x, y + 1); }";
/// let inlines = file_inlines(text, &Table::standard(), InlineOptions::default());
/// let inlined = "fn f() { print!(\"{x}, {y:>w$}\"); print!(\"{} {}\", x, y + 1); }";
/// assert_eq!(inlines.text.as_deref(), Some(inlined));
/// assert_eq!(inlines.calls, [CallInlining::Inlined, CallInlining::Unchanged(Obstacle::Mixed)]);
/// ```
#[must_use]
pub fn file_inlines(text: &str, table: &Table<'_>, options: InlineOptions) -> FileInlines {
    let reading = reading_options(table, options.is_from_2021);
    answer(inlines_in(text, &reading, options.allows_mixed))
}

/// Returns the options for reading a file.
fn reading_options<'a>(table: &Table<'a>, is_from_2021: bool) -> Options<'a> {
    Options {
        table: TableIn {
            rows: table.rows().to_vec(),
        },
        is_from_2021,
    }
}

/// A call that was checked.
pub struct CheckedCall<'a> {
    checked: CallReportIn<'a>,
}

/// Shows the faults and the pieces.
impl Debug for CheckedCall<'_> {
    fn fmt(&self, out: &mut Formatter<'_>) -> fmt::Result {
        let mut out = out.debug_struct("CheckedCall");
        out.field("faults", &self.faults())
            .field("pieces", &self.pieces());
        out.finish_non_exhaustive()
    }
}

/// Checks a call of a macro that takes a format string: reads the string, compares its placeholders
/// with the arguments, which are given in the order of the source, and finds the faults that rustc
/// finds.
///
/// The number of hashes, the length of the text in bytes, and 2 must together fit into a `usize`. An
/// allocation failure aborts, as elsewhere in Rust.
///
/// ```
/// use dephungo::source::{call_faults, FormatString, FormatArgument};
///
/// let string = FormatString {
///     text: "{} {}",
///     style: None,
///     snippet: None,
///     appended_newline: false,
///     captures_variables: true,
/// };
/// let arguments = [FormatArgument { name: None, variable: Some("x") }];
/// let checked = call_faults(string, &arguments);
/// let fault = &checked.faults()[0];
/// assert_eq!(fault.id(), "missing-argument");
/// assert_eq!(
///     checked.title(fault),
///     "2 positional arguments in format string, but there is 1 argument"
/// );
/// ```
#[must_use]
pub fn call_faults<'a>(
    string: FormatString<'a>,
    arguments: &'a [FormatArgument<'a>],
) -> CheckedCall<'a> {
    CheckedCall {
        checked: answer(call_faults_in(string, arguments)),
    }
}

impl<'a> CheckedCall<'a> {
    /// Returns the faults, in the order in which rustc reports them.
    #[must_use]
    pub fn faults(&self) -> &[CallFault<'a>] {
        &self.checked.faults
    }

    /// Returns the pieces of the format string.
    #[must_use]
    pub fn pieces(&self) -> &[Piece<'a>] {
        &self.checked.pieces
    }

    /// Returns the places of the placeholders that a brace closed, as byte ranges of the snippet, if
    /// that is the source literal of the text.
    #[must_use]
    pub fn arg_places(&self) -> &[Range<usize>] {
        self.checked.parser.arg_places()
    }

    /// Returns the title of one of the faults, as rustc has it. An allocation failure aborts, as
    /// elsewhere in Rust.
    #[must_use]
    pub fn title(&self, fault: &CallFault<'a>) -> String {
        let mut title = String::new();
        answer(self.checked.put_title(&mut title, fault));
        title
    }
}
