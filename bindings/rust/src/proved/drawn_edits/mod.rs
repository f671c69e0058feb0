//! Edits of a source as rustc draws them: the lines that they change, and the new ones.

// Extracted from crates/drawn_edits/src/lib.rt by tools/extract: not to be edited.
// That source has the contracts, and is proved. That this text means the same is only tested.

pub(crate) mod changes;
pub(crate) mod edit_rows;
pub(crate) mod edited;
pub(crate) mod suggestions;

pub use edited::{placed_edit, Edit};
pub use suggestions::{put_edits, put_help_word};
