//! The reason why there is no answer.

// Extracted from crates/lint_program/src/failure.rt by tools/extract: not to be edited.
// That source has the contracts, and is proved. That this text means the same is only tested.

use crate::proved::piece_listing::verdict::RunFault;
use crate::shim::alloc::AllocError;
use std::io;

/// The reason why there is no answer.
pub struct Failure {
    /// The kind of failure.
    pub fault: RunFault,
    /// The error of the system, if it has one.
    pub error: Option<io::Error>,
}

impl From<RunFault> for Failure {
    #[inline]
    fn from(fault: RunFault) -> Failure {
        Failure { fault, error: None }
    }
}

impl From<AllocError> for Failure {
    #[inline]
    fn from(_error: AllocError) -> Failure {
        Failure::from(RunFault::Memory)
    }
}

impl Failure {
    /// Returns the failure of a read with this error.
    #[inline]
    pub fn new(error: io::Error) -> Failure {
        Failure {
            fault: RunFault::Read,
            error: Some(error),
        }
    }

    /// Returns whether the system's error is of this kind.
    pub fn has_kind(&self, kind: io::ErrorKind) -> bool {
        match &self.error {
            Some(error) => error.kind() == kind,
            None => false,
        }
    }
}
