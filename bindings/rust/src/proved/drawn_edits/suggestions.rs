//! Edits with the old and the new lines. A function whose name begins with `put_` appends to
//! `out`.

// Extracted from crates/drawn_edits/src/suggestions.rt by tools/extract: not to be edited.
// That source has the contracts, and is proved. That this text means the same is only tested.

use crate::proved::drawn_edits::changes::put_rows;
use crate::proved::drawn_edits::edited::Edit;
use crate::proved::drawn_lines::{put_painted_text, Frame, Palette, Style};
use crate::shim::alloc::AllocError;
use crate::shim::prelude::*;

/// Adds the word that a help begins with.
pub fn put_help_word(out: &mut String, palette: Palette) -> Result<(), AllocError> {
    put_painted_text(out, palette, Style::Help, "help")?;
    out.push_str(": ");
    Ok(())
}

/// Adds the rows of edits.
#[inline]
pub fn put_edits(
    out: &mut String,
    frame: &Frame<'_>,
    edits: &[Edit<'_>],
) -> Result<(), AllocError> {
    put_rows(out, frame, edits)?;
    Ok(())
}
