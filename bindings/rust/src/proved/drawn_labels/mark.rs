//! A label as it is drawn in a line.

// Extracted from crates/drawn_labels/src/mark.rt by tools/extract: not to be edited.
// That source has the contracts, and is proved. That this text means the same is only tested.

/// A label in one line.
#[derive(Clone, Copy)]
pub struct Mark<'a> {
    /// The number of the line, counted from 0.
    pub line: usize,
    /// The first column of the label.
    pub start: usize,
    /// The first column after the label.
    pub end: usize,
    /// The sign under its columns.
    pub sign: char,
    /// Its text.
    pub text: &'a str,
}
