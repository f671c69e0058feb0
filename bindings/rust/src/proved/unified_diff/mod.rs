//! The difference of two texts as a unified diff ([`put_diff`]), which `patch -p0` and
//! `git apply -p0` take.

// Extracted from crates/unified_diff/src/lib.rt by tools/extract: not to be edited.
// That source has the contracts, and is proved. That this text means the same is only tested.

pub(crate) mod hunks;
pub(crate) mod rows;

pub use hunks::put_diff;
