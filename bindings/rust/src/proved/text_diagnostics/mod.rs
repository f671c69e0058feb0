//! What rustc says of a fault of a string, whatever the string is part of: the kind of the fault
//! ([`id_of`]), and what is suggested ([`suggestions_of`]).

// Extracted from crates/text_diagnostics/src/lib.rt by tools/extract: not to be edited.
// That source has the contracts, and is proved. That this text means the same is only tested.

pub(crate) mod ids;

pub use ids::id_of;
