//! Methods of the public types: the clone of a piece, the index of a position, the default of an
//! argument, and whether it is an identifier.

// Extracted from crates/rustc_parse_format/src/methods.rt by tools/extract: not to be edited.
// That source has the contracts, and is proved. That this text means the same is only tested.

use crate::proved::rustc_parse_format::laws::{default_of_spec, specs_are_equal};
use crate::proved::rustc_parse_format::types::{Argument, Position};

impl Position<'_> {
    /// Returns the index of the argument, or `None` if it is given by name.
    #[inline]
    pub fn index(&self) -> Option<usize> {
        match self {
            Position::ArgumentIs(n) | Position::ArgumentImplicitlyIs(n) => Some(*n),
            Position::ArgumentNamed(_) => None,
        }
    }
}

impl Argument<'_> {
    /// Returns whether the argument is a name and nothing else: its format is the default, without
    /// any span.
    #[inline]
    pub fn is_identifier(&self) -> bool {
        matches!(self.position, Position::ArgumentNamed(_))
            && specs_are_equal(&self.format, &default_of_spec())
    }
}

impl Default for Argument<'_> {
    /// Returns an argument to read a placeholder into, as `Parser::next_into` does: the implicit
    /// argument 0 with an empty span and the default format.
    #[inline]
    fn default() -> Self {
        Argument {
            position: Position::ArgumentImplicitlyIs(0),
            position_span: 0..0,
            format: default_of_spec(),
        }
    }
}
