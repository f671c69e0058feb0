//! The options for reading a file, and the report on it.

// Extracted from crates/source_report/src/report.rt by tools/extract: not to be edited.
// That source has the contracts, and is proved. That this text means the same is only tested.

use crate::proved::format_calls::{Reason, Table};
use crate::proved::rust_trees::FileBreak;
use crate::shim::prelude::*;
use core::ops::Range;

/// How a file is read.
pub struct Options<'a> {
    /// The macros that take a format string.
    pub table: Table<'a>,
    /// Whether the edition of the file is 2021 or a later one.
    pub is_from_2021: bool,
}

/// How much of a call was read.
#[derive(Clone, Copy, Debug, Eq, PartialEq)]
pub enum CallReading {
    /// Its format string and its arguments.
    Whole,
    /// Its format string alone: how many arguments there are is not known, for example because a
    /// macro repeats some of them.
    StringAlone,
    /// Nothing, since the file defines a macro of this name by `macro_rules!`.
    RedefinedMacro,
    /// Nothing, since the macro has the name of one of log, tracing or slog, but the path in front
    /// of it is one of another crate.
    ForeignMacro,
    /// Nothing, since no expression stands where one should: one of its arguments is empty, or an
    /// operator lacks an operand.
    NoExpression,
    /// Nothing, since no comma stands between two of its expressions.
    NoComma,
    /// Nothing, for this reason.
    Unread(Reason),
    /// Nothing, since its literal stands for no text: an escape in it is wrong.
    Malformed,
}

/// A label of a finding under the source.
#[derive(Clone, Debug, Eq, PartialEq)]
pub struct Label {
    /// The bytes of the file that it is about. Both ends are at characters.
    pub range: Range<usize>,
    /// Whether the fault is about this range: it has the sign `^`, and the others have `-`.
    pub is_primary: bool,
    /// Its text, in rustc's words, or an empty one.
    pub text: String,
}

/// A note of a finding.
#[derive(Clone, Debug, Eq, PartialEq)]
pub struct Note {
    /// Its text, in rustc's words, which may have several lines.
    pub text: String,
    /// The bytes of the file that it shows. Both ends of each range are at characters. A note
    /// without any is a row under the labels, and one with some has a drawing of its own.
    pub ranges: Vec<Range<usize>>,
}

/// A text that a help puts in the place of another one.
#[derive(Clone, Debug, Eq, PartialEq)]
pub struct Edit {
    /// The bytes of the file that it replaces: none where text is only inserted. Both ends are at
    /// characters.
    pub range: Range<usize>,
    /// The new text, which is empty where text is only removed.
    pub text: String,
}

/// A help of a finding.
#[derive(Clone, Debug, Eq, PartialEq)]
pub struct Help {
    /// The advice, in rustc's words.
    pub text: String,
    /// The edits that follow it, in the order of the source.
    pub edits: Vec<Edit>,
}

/// A fault of a call, in rustc's words.
#[non_exhaustive]
#[derive(Clone, Debug, Eq, PartialEq)]
pub struct Finding {
    /// Whether it is a warning. Any other fault is an error.
    pub is_warning: bool,
    /// The id of its kind, in kebab case.
    pub id: &'static str,
    /// The title, in rustc's words.
    pub title: String,
    /// The primary span: the bytes of the file that it is about. Both ends are at characters.
    pub span: Range<usize>,
    /// The labels, in rustc's order.
    pub labels: Vec<Label>,
    /// The notes, in rustc's order.
    pub notes: Vec<Note>,
    /// The help, if there is one that is no label.
    pub help: Option<Help>,
}

/// The readings of the calls of a file, and the faults of these calls.
#[non_exhaustive]
#[derive(Clone, Debug, Eq, PartialEq)]
pub struct Report {
    /// How much of each call of a macro of the table was read, in the order of their names.
    pub calls: Vec<CallReading>,
    /// The faults of these calls, one call after the other.
    pub findings: Vec<Finding>,
    /// Where the file breaks, or `None` if it does not. Calls before that place are read.
    pub first_break: Option<FileBreak>,
}
