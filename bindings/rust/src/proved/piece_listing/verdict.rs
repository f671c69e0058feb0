//! The errors of the program, and the error message and exit status for each result.

// Extracted from crates/piece_listing/src/verdict.rt by tools/extract: not to be edited.
// That source has the contracts, and is proved. That this text means the same is only tested.

use crate::shim::alloc::AllocError;

/// An error of `run`: the reason why the listing is not written, or not all of it.
#[derive(Copy, Clone, Debug, Eq, PartialEq)]
pub enum RunFault {
    /// The command-line arguments are invalid.
    Words,
    /// A read failed.
    Read,
    /// The input is longer than 1,048,576 bytes.
    TooLong,
    /// The input is not UTF-8.
    NotText,
    /// The input is not a string literal, and has to be one.
    NotLiteral,
    /// An allocation failed.
    Memory,
    /// A write failed, or wrote no byte.
    Write,
}

impl From<AllocError> for RunFault {
    #[inline]
    fn from(_error: AllocError) -> RunFault {
        RunFault::Memory
    }
}

/// The exit of a program.
#[derive(Copy, Clone, Debug, Eq, PartialEq)]
pub struct Exit {
    /// The message for standard error, without a line end. It is empty if there is no error.
    pub message: &'static str,
    /// The exit status.
    pub status: u8,
}

/// Returns the message and the exit status of the program for a result of `run`. The status is 0 if
/// each line of the listing is of a piece, 1 if not, 2 if the command-line arguments are invalid or
/// the input is not a string literal, and 3 after any other error. Does not allocate.
#[inline(never)]
pub fn verdict(answer: &Result<bool, RunFault>) -> Exit {
    let (message, status) = match answer {
        Ok(false) => ("", 0),
        Ok(true) => ("", 1),
        Err(RunFault::Words) => (
            "usage: formatread format|asm|diagnostic|diagnostic-named [--literal] [--args N,NAME,..]",
            2,
        ),
        Err(RunFault::NotLiteral) => ("formatread: input is not a string literal", 2),
        Err(RunFault::Read) => ("formatread: reading failed", 3),
        Err(RunFault::TooLong) => ("formatread: input is longer than 1048576 bytes", 3),
        Err(RunFault::NotText) => ("formatread: input is not UTF-8", 3),
        Err(RunFault::Memory) => ("formatread: out of memory", 3),
        Err(RunFault::Write) => ("formatread: writing failed", 3),
    };
    Exit { message, status }
}
