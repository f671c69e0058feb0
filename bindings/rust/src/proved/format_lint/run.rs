//! The program over any reader and writer: its input and its output.

// Extracted from crates/format_lint/src/run.rt by tools/extract: not to be edited.
// That source has the contracts, and is proved. That this text means the same is only tested.

use super::outputs::outputs_of_input;
use super::task::Task;
use crate::proved::piece_listing::run::{read_input, write_whole};
use crate::proved::piece_listing::verdict::RunFault;
use std::io::{Read, Write};

/// Reads an input from `reader` up to its end, and writes the output of `task` for it to `writer`
/// and then the error output to `error_writer`: the drawing of a fault, where the output is tokens
/// or a literal. Returns the number of faults that are left as mistakes of their own and follow
/// from no other one: of the input, or of the literal with its fixes.
///
/// The input may have at most 1,048,576 bytes. Returns `Err` if a read, a write or an allocation
/// fails, or if the input is too long, not UTF-8, or not a string literal although the task needs
/// one (`RunFault`, but never `Words`). A read or a write that fails is not tried again. After an
/// error nothing is written, except that after a failed write a part may be.
#[inline(never)]
pub fn run<R: Read, W: Write, E: Write>(
    reader: &mut R,
    writer: &mut W,
    error_writer: &mut E,
    task: Task<'_>,
) -> Result<usize, RunFault> {
    let input = read_input(reader)?;
    let Ok(text) = core::str::from_utf8(input.as_slice()) else {
        return Err(RunFault::NotText);
    };
    let outputs = outputs_of_input(text, task)?;
    write_whole(writer, outputs.output.as_bytes())?;
    write_whole(error_writer, outputs.error_output.as_bytes())?;
    Ok(outputs.mistake_count)
}
