//! A Rust source file with the suggestions of the compiler applied to the faults of its format
//! strings ([`fixes`]).

// Extracted from crates/file_fixes/src/lib.rt by tools/extract: not to be edited.
// That source has the contracts, and is proved. That this text means the same is only tested.

pub(crate) mod all_faults;
pub(crate) mod fault_search;
pub(crate) mod literals;
pub(crate) mod mended;
pub(crate) mod outside;
pub(crate) mod round_edits;
pub(crate) mod rounds;

pub use rounds::{fixes, is_no_worse, FileFixes};
