//! The fault of a text that rustc shows ([`text_fault`]), and places and labels of messages.

// Extracted from crates/text_faults/src/lib.rt by tools/extract: not to be edited.
// That source has the contracts, and is proved. That this text means the same is only tested.

pub(crate) mod spots;
pub(crate) mod text;

pub use spots::{CallLabel, Spot};
pub use text::text_fault;
