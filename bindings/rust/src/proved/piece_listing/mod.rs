//! The program `formatread` as a function over any reader and writer (`run`), and the error message
//! and exit status for each of its results (`verdict`).

// Extracted from crates/piece_listing/src/lib.rt by tools/extract: not to be edited.
// That source has the contracts, and is proved. That this text means the same is only tested.

#[cfg(feature = "formatread")]
pub(crate) mod arguments;
#[cfg(feature = "formatread")]
pub(crate) mod calls;
#[cfg(feature = "formatread")]
pub(crate) mod input;
#[cfg(feature = "formatread")]
pub(crate) mod listing;
pub mod literal;
#[cfg(feature = "formatread")]
pub(crate) mod numbers;
#[cfg(feature = "formatread")]
pub(crate) mod report_lines;
#[cfg(feature = "formatread")]
pub mod run;
#[cfg(feature = "formatread")]
pub(crate) mod task;
#[cfg(feature = "formatread")]
pub mod verdict;
#[cfg(feature = "programs")]
pub use listing::put_quoted;
#[cfg(feature = "programs")]
pub use numbers::put_span;
#[cfg(feature = "programs")]
pub use report_lines::{has_entries, report_for};
#[cfg(feature = "programs")]
pub use task::{task_of, Task};
