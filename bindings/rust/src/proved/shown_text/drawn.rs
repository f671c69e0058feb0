//! Bytes of files as a terminal gets them.

// Extracted from crates/shown_text/src/drawn.rt by tools/extract: not to be edited.
// That source has the contracts, and is proved. That this text means the same is only tested.

use crate::proved::drawn_lines::put_glyphs;
use crate::shim::alloc::AllocError;
use crate::shim::prelude::*;

/// Appends bytes as a terminal is to have them: as drawings have their text, with U+FFFD for bytes
/// that are not UTF-8.
pub fn put_drawn(out: &mut String, bytes: &[u8]) -> Result<(), AllocError> {
    let text = String::made_from_bytes(bytes)?;
    put_glyphs(out, text.as_str(), 0)
}
