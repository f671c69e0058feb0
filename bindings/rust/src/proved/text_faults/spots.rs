//! The places of a call that messages show, and their labels, as plain data.

// Extracted from crates/text_faults/src/spots.rt by tools/extract: not to be edited.
// That source has the contracts, and is proved. That this text means the same is only tested.

use crate::shim::prelude::*;

/// A place in the source of a call, which is a byte range there. An argument is named by its index
/// among all that are given.
#[derive(Clone, Copy, Debug, PartialEq)]
pub enum Spot {
    /// An argument, from its name on if it has one.
    Argument(usize),
    /// The name of an argument, as it is written.
    Name(usize),
    /// The value of an argument: its expression.
    Value(usize),
    /// The value of an argument, and what is after it up to the value of the next one.
    ValueUpToNext(usize),
    /// The empty range after the value of an argument.
    ValueEnd(usize),
    /// The literal of the format string.
    Literal,
    /// The empty range in front of the closing quote of that literal.
    LiteralEnd,
    /// The empty range after that literal.
    AfterLiteral,
    /// The call, from the path of its macro to the delimiter that closes it.
    Call,
    /// These bytes of that literal, as the spans of the parser count them.
    Bytes {
        /// The offset of the first byte.
        start: usize,
        /// The offset after the last byte.
        end: usize,
    },
}

/// A label under the source of a call.
#[derive(Debug, PartialEq)]
pub struct CallLabel {
    /// Where it is.
    pub spot: Spot,
    /// Whether the fault is about this place: it has the sign `^`, and the others have `-`.
    pub is_primary: bool,
    /// Its text, in rustc's words, or an empty one.
    pub text: String,
}
