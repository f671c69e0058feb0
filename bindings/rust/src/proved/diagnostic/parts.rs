//! A diagnostic and its parts, as plain data.

// Extracted from crates/diagnostic/src/parts.rt by tools/extract: not to be edited.
// That source has the contracts, and is proved. That this text means the same is only tested.

use crate::proved::diagnostic::ids::Id;
use crate::shim::prelude::*;

/// The level of a diagnostic.
#[derive(Clone, Copy, Debug, Eq, PartialEq)]
pub enum Level {
    /// The source does not compile.
    Error,
    /// The source compiles.
    Warning,
}

/// A label under the source.
pub struct Label<P> {
    /// Where it is.
    pub place: P,
    /// Whether the fault is about this place: it has the sign `^`, and the others have `-`.
    pub is_primary: bool,
    /// Its text, or an empty one.
    pub text: String,
}

/// The word before a note.
#[derive(Clone, Copy, Debug, Eq, PartialEq)]
pub enum NoteLevel {
    /// `note`.
    Note,
    /// `help`.
    Help,
}

/// A note, or a help without edits.
pub struct Note<P> {
    /// Its word.
    pub level: NoteLevel,
    /// Its text, which may have several lines.
    pub text: String,
    /// The places that it shows. A note without any is a row under the labels.
    pub places: Vec<P>,
}

/// A text that a suggestion puts in the place of another one.
pub struct Edit<P> {
    /// The place of the text that it replaces.
    pub place: P,
    /// The new text.
    pub text: String,
}

/// How sure the compiler is of a suggestion.
#[derive(Clone, Copy, Debug, Eq, PartialEq)]
pub enum Applicability {
    /// It is what is meant, so that a machine may apply it.
    MachineApplicable,
    /// It may not be what is meant.
    MaybeIncorrect,
}

/// How a suggestion is shown to people.
#[derive(Clone, Copy, Debug, Eq, PartialEq)]
pub enum SuggestionStyle {
    /// As a label of its place, with the new text.
    ShowCode,
    /// Below the source, by the lines with the new text.
    ShowAlways,
    /// Not at all: only programs get it.
    CompletelyHidden,
}

/// A suggestion.
pub struct Suggestion<P> {
    /// The advice.
    pub advice: String,
    /// The edits that follow it, in the order of the source.
    pub edits: Vec<Edit<P>>,
    /// How sure the compiler is of it.
    pub applicability: Applicability,
    /// Whether the source is whole once it is applied, so that nothing is left to a person.
    pub is_complete: bool,
    /// How it is shown.
    pub style: SuggestionStyle,
}

/// What a check says of a fault.
pub struct Diagnostic<P> {
    /// Its level.
    pub level: Level,
    /// The kind of the fault.
    pub id: Id,
    /// The title.
    pub title: String,
    /// The labels, in the compiler's order.
    pub labels: Vec<Label<P>>,
    /// The notes and the helps without edits, in the compiler's order.
    pub notes: Vec<Note<P>>,
    /// The suggestions, in the compiler's order.
    pub suggestions: Vec<Suggestion<P>>,
}
