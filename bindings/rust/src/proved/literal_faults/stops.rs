//! The place at which a text can no longer be read as the content of an ordinary string literal.

// Extracted from crates/literal_faults/src/stops.rt by tools/extract: not to be edited.
// That source has the contracts, and is proved. That this text means the same is only tested.

use crate::proved::rustc_parse_format::literal::{split_first_unit, FirstUnit};

/// Returns the rest of a text after the characters and escapes of an ordinary string literal that
/// it begins with.
pub fn after_units(content: &str) -> &str {
    let mut rest = content;
    while let Some(FirstUnit {
        character: _,
        rest: more,
    }) = split_first_unit(rest)
    {
        rest = more;
    }
    rest
}
