//! Reading the bytes of a file, and the text at their start.

// Extracted from crates/formatlint/src/reading.rt by tools/extract: not to be edited.
// That source has the contracts, and is proved. That this text means the same is only tested.

use crate::proved::formatlint::walk::Walk;
use crate::proved::rust_trees::BreakKind;
use crate::shim::host::fs;
use crate::shim::host::fs::File;
use crate::shim::prelude::*;
use std::io;
use std::io::Read;

/// The most bytes of a file that are read.
const MOST: usize = 64 << 20;

/// The number of bytes for which there is room at first.
const ROOM: usize = 1 << 16;

/// Returns why a file is not read further.
pub fn break_words(kind: BreakKind) -> &'static str {
    match kind {
        BreakKind::UnclosedDelimiter => "this delimiter is not closed",
        BreakKind::UnexpectedDelimiter => "unexpected closing delimiter",
        BreakKind::UnterminatedToken => "this literal or comment has no end",
    }
}

/// The part of a file that was read.
#[derive(Clone, Copy)]
pub enum Extent {
    /// All of it.
    Whole,
    /// The text before bytes that are not UTF-8.
    Text,
    /// The first 64 MiB.
    Front,
}

/// The text at the start of a file.
pub struct FileText<'a> {
    /// The text.
    pub text: &'a str,
    /// How much of the file that is.
    pub extent: Extent,
}

/// Returns the text at the start of a file, and how much of it that is.
#[inline(never)]
pub fn text_of(bytes: &[u8]) -> FileText<'_> {
    let is_cut = bytes.len() > MOST;
    let front = bytes.get(..MOST).unwrap_or(bytes);
    match core::str::from_utf8(front) {
        Ok(text) if is_cut => FileText {
            text,
            extent: Extent::Front,
        },
        Ok(text) => FileText {
            text,
            extent: Extent::Whole,
        },
        Err(error) => {
            let valid_front = front.get(..error.valid_up_to()).unwrap_or(&[]);
            let text = core::str::from_utf8(valid_front).unwrap_or("");
            let extent = if is_cut && error.error_len().is_none() {
                Extent::Front
            } else {
                Extent::Text
            };
            FileText { text, extent }
        }
    }
}

/// Reads a stream up to its end or the most bytes that are read.
pub fn read_all<R: Read>(rt: &crate::shim::host::HostRuntime, stream: R) -> io::Result<Vec<u8>> {
    let mut bytes = Vec::with_capacity(ROOM);
    stream.take(MOST as u64 + 1).read_to_end(&mut bytes)?;
    Ok(bytes)
}

/// An open file, and the bytes that were read of it.
pub struct SourceFile {
    /// The file.
    pub file: File,
    /// The bytes.
    pub bytes: Vec<u8>,
}

/// Opens a file and reads it. Returns `None` if a walk found it and it does not lie there any more.
#[inline(never)]
pub fn open_source(
    rt: &crate::shim::host::HostRuntime,
    path: &str,
    walk: Option<&Walk<'_>>,
) -> io::Result<Option<SourceFile>> {
    let file = fs::open(rt, path)?;
    if let Some(walk) = walk {
        if !walk.holds(rt, path, &file)? {
            return Ok(None);
        }
    }
    let bytes = read_all(rt, &file)?;
    Ok(Some(SourceFile { file, bytes }))
}

/// Where the bytes of a file are from.
#[derive(Clone, Copy)]
pub enum Origin<'f> {
    /// A file, which is still open.
    File(&'f File),
    /// Standard input.
    Stdin,
}
