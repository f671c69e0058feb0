//! The program over any reader and writer: its command-line arguments, input, listing and output.

// Extracted from crates/piece_listing/src/run.rt by tools/extract: not to be edited.
// That source has the contracts, and is proved. That this text means the same is only tested.

use super::input::{list_input, Listing};
use super::task::task_of;
use super::verdict::RunFault;
use crate::shim::prelude::*;
use std::io::{Read, Write};

/// The most bytes that an input may have.
const LIMIT: usize = 1_048_576;

/// The number of bytes that one read requests.
const CHUNK: usize = 4096;

/// Reads all bytes of a reader up to its end. Returns `Err` if a read or an allocation fails, or if
/// there are more than `LIMIT` bytes.
#[inline(never)]
pub fn read_input<R: Read>(reader: &mut R) -> Result<Vec<u8>, RunFault> {
    let mut bytes = Vec::new();
    let mut chunk = [0u8; CHUNK];
    for _ in 0..LIMIT + 1 {
        let count = match reader.read(&mut chunk) {
            Ok(count) => count,
            Err(_) => return Err(RunFault::Read),
        };
        if count == 0 {
            return Ok(bytes);
        }
        if count > LIMIT - bytes.len() {
            return Err(RunFault::TooLong);
        }
        bytes.extend_from_slice(&chunk[..count]);
    }
    Err(RunFault::TooLong)
}

/// Writes all of the bytes. Returns `Err` if a write fails or writes no byte; a part of the bytes
/// may then be written.
#[inline(never)]
pub fn write_whole<W: Write>(writer: &mut W, bytes: &[u8]) -> Result<(), RunFault> {
    let mut rest = bytes;
    while !rest.is_empty() {
        match writer.write(rest) {
            Ok(0) | Err(_) => return Err(RunFault::Write),
            Ok(count) => rest = &rest[count..],
        }
    }
    Ok(())
}

/// Reads an input from `reader` up to its end and writes its listing to `writer`: a line for each
/// piece, each error in the input, and each entry of the report on missing and unused arguments, if
/// `words` has a list of arguments. Returns whether there is a line that is not of a piece.
///
/// `words` are the command-line arguments after the program's name; they are checked before
/// anything is read. The input may have at most 1,048,576 bytes. Returns `Err` if the words are
/// invalid, a read, a write or an allocation fails, or the input is too long, not UTF-8 or, with
/// `--literal`, not a string literal (`RunFault`). A read or a write that fails is not tried
/// again. After an error nothing is written, except that after a failed write a part of the listing
/// may be.
#[inline(never)]
pub fn run<R: Read, W: Write>(
    reader: &mut R,
    writer: &mut W,
    words: &[String],
) -> Result<bool, RunFault> {
    let task = match task_of(words) {
        Some(task) => task,
        None => return Err(RunFault::Words),
    };
    let input = read_input(reader)?;
    let Ok(text) = core::str::from_utf8(input.as_slice()) else {
        return Err(RunFault::NotText);
    };
    let Listing { lines, has_ends } = list_input(text, task)?;
    write_whole(writer, lines.as_bytes())?;
    Ok(has_ends)
}
