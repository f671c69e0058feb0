//! A Rust source file in which variables that were arguments of format macros are in the format
//! strings ([`package_inlines`]).

// Extracted from crates/file_inlines/src/lib.rt by tools/extract: not to be edited.
// That source has the contracts, and is proved. That this text means the same is only tested.

pub(crate) mod calls;
pub(crate) mod edits;
pub(crate) mod file;
pub(crate) mod sources;
pub(crate) mod terms;

pub use calls::CallInlining;
#[cfg(feature = "programs")]
pub use file::package_inlines;
pub use file::{inlines, FileInlines};
