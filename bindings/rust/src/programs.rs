//! The programs `formatread` and `formatlint`, which `cargo install` makes of this crate: with the
//! arguments, the streams, the files and the environment of the process they do what the proved
//! programs do.
use crate::proved::formatread::main;
use crate::shim::host::{self, HostRuntime};
use std::process::ExitCode;

#[cfg(feature = "programs")]
mod formatlint;

#[cfg(feature = "programs")]
pub use formatlint::formatlint;

/// Runs the program that lists the pieces and the faults of a format string, and returns its exit
/// status.
#[must_use]
pub fn formatread() -> ExitCode {
    main(HostRuntime)
}

/// Notes whether standard output is closed, for the programs to say so. It has to be called before
/// `main`.
pub extern "C" fn note_closed_output() {
    host::note_closed_output();
}
