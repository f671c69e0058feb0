//! Prefixes of characters that are drawn as they are, found sixteen bytes at a time. Of these, the
//! printable ones of ASCII take one column.

// Extracted from crates/drawn_lines/src/printable.rt by tools/extract: not to be edited.
// That source has the contracts, and is proved. That this text means the same is only tested.

use crate::proved::rustc_parse_format::{front_width, Stops};
use crate::shim::prelude::*;

/// The first byte of the characters from U+0080 to U+00BF.
const LEAD_OF_80: u8 = 0xc2;

/// The first byte of the characters from U+0600 to U+063F.
const LEAD_OF_600: u8 = 0xd8;

/// The first byte of the characters from U+2000 to U+2FFF.
const LEAD_OF_2000: u8 = 0xe2;

/// The stops of a text that is drawn as it is: control characters of ASCII, and the first bytes
/// above.
const AS_IS: Stops = Stops {
    low: b' ',
    high: 255,
    first: 127,
    second: LEAD_OF_80,
    third: LEAD_OF_600,
    fourth: LEAD_OF_2000,
};

/// The stops of a text whose characters beyond ASCII are drawn as they are: the first bytes above.
const BEYOND_ASCII: Stops = Stops {
    low: 0,
    high: 255,
    first: LEAD_OF_80,
    second: LEAD_OF_600,
    third: LEAD_OF_2000,
    fourth: LEAD_OF_2000,
};

/// The stops of a text of printable characters of ASCII.
const PRINTABLE: Stops = Stops {
    low: b' ',
    high: b'~',
    first: 127,
    second: 127,
    third: 127,
    fourth: 127,
};

/// Returns the longest prefix of at most `limit` characters that are printable, and what is after
/// it.
pub fn split_printable(text: &str, limit: usize) -> (&str, &str) {
    let bytes = text.as_bytes();
    let width = front_width(&bytes[..bytes.len().min(limit)], PRINTABLE);
    text.split_at(width)
}

/// Returns a prefix of a text that is drawn as it is, and what is after it.
pub fn split_as_is(text: &str) -> (&str, &str) {
    let width = text.boundary_at_most(front_width(text.as_bytes(), AS_IS));
    text.split_at(width)
}

/// Returns `true` only if each part of a text is drawn as it is, so that [`put_glyphs`] appends it
/// as `push_str` does. For some texts of which that holds it returns `false`.
///
/// [`put_glyphs`]: crate::put_glyphs
#[inline]
pub fn is_drawn_as_is(text: &str) -> bool {
    front_width(text.as_bytes(), AS_IS) == text.len()
}

/// Returns `true` only if each part of a text without ASCII is drawn as it is. For some texts of
/// which that holds it returns `false`.
#[inline]
pub fn is_non_ascii_drawn_as_is(text: &str) -> bool {
    front_width(text.as_bytes(), BEYOND_ASCII) == text.len()
}
