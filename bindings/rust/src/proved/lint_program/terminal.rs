//! The bytes that standard output gets of files.

// Extracted from crates/lint_program/src/terminal.rt by tools/extract: not to be edited.
// That source has the contracts, and is proved. That this text means the same is only tested.

use crate::proved::shown_text::put_drawn;
use crate::shim::alloc::AllocError;
use crate::shim::host::IsTerminal;
use crate::shim::prelude::*;

/// Returns the bytes that standard output gets of these: on a terminal they are as drawings have
/// them, which is made in `drawing`, and otherwise they stay.
pub fn shown_bytes<'a>(
    rt: &crate::shim::host::HostRuntime,
    bytes: &'a [u8],
    drawing: &'a mut String,
) -> Result<&'a [u8], AllocError> {
    if !rt.stdout().is_terminal() {
        return Ok(bytes);
    }
    put_drawn(drawing, bytes)?;
    Ok(drawing.as_bytes())
}
