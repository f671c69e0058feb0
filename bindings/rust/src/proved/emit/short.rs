//! The form for editors.

// Extracted from crates/emit/src/short.rt by tools/extract: not to be edited.
// That source has the contracts, and is proved. That this text means the same is only tested.

use crate::proved::emit::escapes::put_number;
use crate::proved::emit::message::{level_name, Message};
use crate::proved::rust_trees::Place;
use crate::proved::shown_text::{put_shown, Kind};
use crate::shim::alloc::AllocError;
use crate::shim::prelude::*;

/// Appends a place: the line, a colon and the column.
fn put_place(out: &mut String, place: Place) -> Result<(), AllocError> {
    put_number(out, place.line)?;
    out.push_str(":");
    put_number(out, place.column)?;
    Ok(())
}

/// Appends a message as a line that editors find places in: `PATH:LINE:COLUMN: LEVEL: TITLE [ID]`.
#[inline(never)]
pub fn put_short(out: &mut String, message: &Message<'_>) -> Result<(), AllocError> {
    put_shown(out, Kind::Line, message.path)?;
    out.push_str(":");
    put_place(out, message.primary.start)?;
    out.push_str(": ");
    out.push_str(level_name(message.level));
    out.push_str(": ");
    put_shown(out, Kind::Line, message.title)?;
    out.push_str(" [");
    put_shown(out, Kind::Line, message.id)?;
    out.push_str("]\n");
    Ok(())
}
