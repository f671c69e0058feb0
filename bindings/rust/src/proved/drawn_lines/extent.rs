//! Places in a source, and ranges between them.

// Extracted from crates/drawn_lines/src/extent.rt by tools/extract: not to be edited.
// That source has the contracts, and is proved. That this text means the same is only tested.

/// A place in a source.
#[derive(Clone, Copy)]
pub struct Spot {
    /// The number of the line, counted from 0.
    pub line: usize,
    /// How many characters of the line are before the place.
    pub chars: usize,
    /// How many columns these take.
    pub column: usize,
    /// Whether these are all white space.
    pub is_indent: bool,
}

/// The places at which a range begins and ends.
#[derive(Clone, Copy)]
pub struct Extent {
    pub start: Spot,
    pub end: Spot,
}
