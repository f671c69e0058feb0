//! Open files: where they are, and whether two of them are one.

// Extracted from crates/lint_program/src/open_files.rt by tools/extract: not to be edited.
// That source has the contracts, and is proved. That this text means the same is only tested.

use crate::shim::host::fs;
use crate::shim::host::fs::{File, Metadata};
use crate::shim::prelude::*;
use std::io;

/// Returns whether two files are one, by the numbers that the system gives it.
pub fn is_same(one: &Metadata, other: &Metadata) -> bool {
    one.dev() == other.dev() && one.ino() == other.ino()
}

/// Returns the path from the root on, without links, that the system says an open file has now,
/// whatever was renamed since it was opened. Returns `Err` if the system does not say it.
pub fn path_of(rt: &crate::shim::host::HostRuntime, file: &File) -> io::Result<String> {
    let number = file.as_raw_fd();
    let link = ::alloc::format!("/proc/self/fd/{number}");
    fs::read_link(rt, link.as_str())
}

/// Returns the same as `path_of`, or the path to which another one leads now if the system does
/// not say where the file is.
pub fn real_path(
    rt: &crate::shim::host::HostRuntime,
    file: &File,
    path: &str,
) -> io::Result<String> {
    if let Ok(path) = path_of(rt, file) {
        return Ok(path);
    }
    fs::canonicalize(rt, path)
}
