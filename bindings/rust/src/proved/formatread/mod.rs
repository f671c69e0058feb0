//! Reads a format string from standard input and writes a listing of its pieces and errors to
//! standard output.

// Extracted from crates/formatread/src/main.rt by tools/extract: not to be edited.
// That source has the contracts, and is proved. That this text means the same is only tested.

use crate::proved::piece_listing::run::run;
use crate::proved::piece_listing::verdict::{verdict, RunFault};
use crate::shim::host::env;
use crate::shim::prelude::*;
use std::process::ExitCode;

/// Returns the command-line arguments after the program's name. Returns `Err` if they are not
/// available or an allocation fails.
#[inline(never)]
fn words(rt: &crate::shim::host::HostRuntime) -> Result<Vec<String>, RunFault> {
    let mut words = match env::args(rt) {
        Ok(words) => words,
        Err(_) => return Err(RunFault::Words),
    };
    let _name = words.next();
    Ok(words.collect())
}

/// Runs the program with its command-line arguments, standard input and standard output. Returns
/// whether there is a line that is not of a piece, as `run` does.
fn answer(rt: &crate::shim::host::HostRuntime) -> Result<bool, RunFault> {
    let words = words(rt)?;
    run(&mut rt.stdin(), &mut rt.stdout(), words.as_slice())
}

#[inline(never)]
pub fn main(rt: crate::shim::host::HostRuntime) -> ExitCode {
    let verdict = verdict(&answer(&rt));
    if !verdict.message.is_empty() {
        let _ = rt.eprintln(verdict.message);
    }
    ExitCode::from(verdict.status)
}
