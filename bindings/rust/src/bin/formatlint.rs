//! Tells and draws the faults of format strings.
use std::process::ExitCode;

#[path = "../out_of_memory.rs"]
mod out_of_memory;

fn main() -> ExitCode {
    dephungo::programs::formatlint()
}

/// The system calls this before `main`.
#[cfg(target_os = "linux")]
#[used]
#[link_section = ".init_array"]
static BEFORE_MAIN: extern "C" fn() = dephungo::programs::note_closed_output;
