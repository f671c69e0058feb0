//! Compares the placeholders of a format string with the arguments that are given to it: `check`
//! takes the pieces, and `read_and_check` reads an input first.

// Extracted from crates/placeholder_check/src/lib.rt by tools/extract: not to be edited.
// That source has the contracts, and is proved. That this text means the same is only tested.

pub(crate) mod checker;
pub(crate) mod indices;
pub(crate) mod names;
pub(crate) mod uses;

#[cfg(feature = "lint")]
pub use checker::check;
#[cfg(feature = "formatread")]
pub use checker::check_uses;
pub use checker::Report;
#[cfg(feature = "programs")]
pub use uses::uses_of;
#[cfg(feature = "formatread")]
pub use uses::Uses;
