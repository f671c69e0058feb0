//! Writing to standard output.

// Extracted from crates/formatlint/src/output.rt by tools/extract: not to be edited.
// That source has the contracts, and is proved. That this text means the same is only tested.

use crate::proved::lint_program::{shown_bytes, Failure, Recorder};
use crate::proved::piece_listing::run::write_whole;
use crate::shim::prelude::*;

/// Writes a text to standard output.
#[inline]
pub fn write(rt: &crate::shim::host::HostRuntime, text: &str) -> Result<(), Failure> {
    write_bytes(rt, text.as_bytes())
}

/// Writes bytes to standard output.
#[inline(never)]
fn write_bytes(rt: &crate::shim::host::HostRuntime, bytes: &[u8]) -> Result<(), Failure> {
    let mut writer = Recorder::new(rt.stdout());
    match write_whole(&mut writer, bytes) {
        Ok(()) => Ok(()),
        Err(fault) => Err(Failure {
            fault,
            error: writer.error,
        }),
    }
}

/// Writes bytes of a file to standard output, on a terminal as drawings have them.
pub fn write_shown(rt: &crate::shim::host::HostRuntime, bytes: &[u8]) -> Result<(), Failure> {
    let mut drawing = String::new();
    write_bytes(rt, shown_bytes(rt, bytes, &mut drawing)?)
}
