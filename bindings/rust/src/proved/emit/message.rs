//! Messages about files, with notes, helps and suggestions.

// Extracted from crates/emit/src/message.rt by tools/extract: not to be edited.
// That source has the contracts, and is proved. That this text means the same is only tested.

use crate::proved::rust_trees::Place;

/// The level of a message.
#[derive(Clone, Copy, Debug, PartialEq)]
pub enum Level {
    /// The message says why the program does not compile.
    Error,
    /// The program compiles.
    Warning,
}

/// A text that is suggested for a range.
#[derive(Clone, Copy)]
pub struct Suggestion<'a> {
    /// The text.
    pub text: &'a str,
    /// Whether the text can be applied without a look at it.
    pub is_sure: bool,
}

/// A range of a file.
#[derive(Clone, Copy)]
pub struct Span<'a> {
    /// The byte offset at which it starts.
    pub byte_start: usize,
    /// The byte offset at which it ends.
    pub byte_end: usize,
    /// The place at which it starts.
    pub start: Place,
    /// The place at which it ends.
    pub end: Place,
    /// The lines of the file that the range is in, from the start of the first one to the end of
    /// the last one, without the line end there, or `None` if they are not shown.
    pub lines: Option<&'a str>,
    /// Whether the message is about this range.
    pub is_primary: bool,
    /// The label of the range, or `None`.
    pub label: Option<&'a str>,
    /// The suggestion for the range, or `None`.
    pub suggestion: Option<Suggestion<'a>>,
}

/// The level of a child of a message.
#[derive(Clone, Copy, Debug, PartialEq)]
pub enum ChildLevel {
    /// The child is a note: it says more about the message.
    Note,
    /// The child is a help: it says how to mend the fault.
    Help,
}

/// A note or a help below a message.
#[derive(Clone, Copy)]
pub struct Child<'a, 's> {
    /// Whether it is a note or a help.
    pub level: ChildLevel,
    /// Its text.
    pub text: &'a str,
    /// The ranges that it speaks of.
    pub spans: &'s [Span<'a>],
}

/// A message about a file.
#[derive(Clone, Copy)]
pub struct Message<'a> {
    /// The level of the message.
    pub level: Level,
    /// The id of the kind of message.
    pub id: &'a str,
    /// The title.
    pub title: &'a str,
    /// The path of the file.
    pub path: &'a str,
    /// The range at whose start editors show it.
    pub primary: Span<'a>,
}

/// Returns the word of rustc for a level.
#[inline]
pub fn level_name(level: Level) -> &'static str {
    match level {
        Level::Error => "error",
        Level::Warning => "warning",
    }
}

/// Returns the word of rustc for the level of a child.
#[inline]
pub fn child_name(level: ChildLevel) -> &'static str {
    match level {
        ChildLevel::Note => "note",
        ChildLevel::Help => "help",
    }
}
