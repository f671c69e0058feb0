//! The program `formatlint` as a function over any reader and writer (`run`), and the error message
//! and exit status for each of its results (`verdict`).

// Extracted from crates/format_lint/src/lib.rt by tools/extract: not to be edited.
// That source has the contracts, and is proved. That this text means the same is only tested.

pub(crate) mod faults;
pub(crate) mod findings;
pub(crate) mod outputs;
pub mod run;
pub mod task;
pub(crate) mod tokens;
