//! The program that reports and draws faults.
use crate::proved::formatlint::main;
use crate::shim::host::HostRuntime;
use std::process::ExitCode;

/// Runs the program that reports and draws the faults of format strings, and returns its exit
/// status.
#[must_use]
pub fn formatlint() -> ExitCode {
    main(HostRuntime)
}
