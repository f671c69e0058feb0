//! The contracts of the derives of the public types. A derive has no contract, so for each derive
//! there is a small function that calls it and states what it does.
//!
//! A clone always succeeds, and equals its source. `==` is true exactly if all fields are equal:
//! texts by their characters, and spans included. So it is reflexive, symmetric and transitive. The
//! defaults have every part absent.

// Extracted from crates/rustc_parse_format/src/laws.rt by tools/extract: not to be edited.
// That source has the contracts, and is proved. That this text means the same is only tested.

use crate::proved::rustc_parse_format::types::{Alignment, Count, DebugHex, FormatSpec, Sign};

/// Returns whether two alignments are equal, by `==`.
#[inline]
pub fn alignments_are_equal(a: &Alignment, b: &Alignment) -> bool {
    a == b
}

/// Returns whether two signs are equal, by `==`.
#[inline]
pub fn signs_are_equal(a: &Sign, b: &Sign) -> bool {
    a == b
}

/// Returns whether two cases of hexadecimal digits are equal, by `==`.
#[inline]
pub fn debug_hexes_are_equal(a: &DebugHex, b: &DebugHex) -> bool {
    a == b
}

/// Proves that a text is UTF-8.
#[inline]
fn know_text(_text: &str) {}

/// Proves that the name in a count is UTF-8.
#[inline]
fn know_count(count: &Count<'_>) {
    if let Count::CountIsName(name, _) = count {
        know_text(name);
    }
}

/// Proves that the texts of a format specification are UTF-8.
#[inline]
fn know_spec(spec: &FormatSpec<'_>) {
    know_count(&spec.precision);
    know_count(&spec.width);
    know_text(spec.ty);
}

/// Returns whether two format specifications are equal, by `==`: texts are compared by their
/// characters, and spans too.
#[inline]
pub fn specs_are_equal(a: &FormatSpec<'_>, b: &FormatSpec<'_>) -> bool {
    know_spec(a);
    know_spec(b);
    a == b
}

/// Returns the default format specification: each part is absent.
#[inline]
pub fn default_of_spec<'input>() -> FormatSpec<'input> {
    FormatSpec::default()
}
