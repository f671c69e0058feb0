//! What a check says of a source: a [`Diagnostic`] for each fault, over any kind of place.

// Extracted from crates/diagnostic/src/lib.rt by tools/extract: not to be edited.
// That source has the contracts, and is proved. That this text means the same is only tested.

pub(crate) mod building;
pub(crate) mod ids;
pub(crate) mod parts;

pub use building::{push_help, push_primary, push_secondary};
pub use ids::Id;
pub use parts::{Diagnostic, Label, Level, Note, NoteLevel};
