//! The line on a terminal that says how many files were read, while more are read.

// Extracted from crates/lint_program/src/progress.rt by tools/extract: not to be edited.
// That source has the contracts, and is proved. That this text means the same is only tested.

use crate::shim::host::Instant;
use crate::shim::host::IsTerminal;

/// The number of milliseconds before the line is written, and between two of them.
const DELAY: u128 = 500;

/// The line on the terminal that is standard error.
pub struct Progress {
    /// The time when the run or the last line began, or `None` if no line is written.
    start: Option<Instant>,
    /// Whether the line is on the terminal.
    is_shown: bool,
}

impl Progress {
    /// Returns the progress of a run that begins now, without a line if standard error is no
    /// terminal.
    #[inline(never)]
    pub fn new(rt: &crate::shim::host::HostRuntime) -> Progress {
        let start = if rt.stderr().is_terminal() {
            Instant::now(rt).ok()
        } else {
            None
        };
        Progress {
            start,
            is_shown: false,
        }
    }

    /// Returns whether the line is to be written.
    #[inline(never)]
    fn is_due(&self, rt: &crate::shim::host::HostRuntime) -> bool {
        match &self.start {
            Some(start) => match start.elapsed(rt) {
                Ok(time) => time.as_millis() > DELAY,
                Err(_) => false,
            },
            None => false,
        }
    }

    /// Writes how many files were read, if half a second has passed since the line was written or
    /// the run began.
    #[inline(never)]
    pub fn show(&mut self, rt: &crate::shim::host::HostRuntime, files: usize) {
        if self.is_due(rt) {
            let _ = crate::shim::eprint_in!(rt; "\rformatlint: files read: {files}");
            self.is_shown = true;
            self.start = Instant::now(rt).ok();
        }
    }

    /// Removes the line from the terminal, before other text is written.
    pub fn clear(&mut self, rt: &crate::shim::host::HostRuntime) {
        if self.is_shown {
            let _ = rt.eprint("\r\x1b[K");
            self.is_shown = false;
        }
    }
}
