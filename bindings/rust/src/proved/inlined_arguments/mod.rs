//! Arguments of a call that are variables, moved into its format string ([`inline_arguments`]).

// Extracted from crates/inlined_arguments/src/lib.rt by tools/extract: not to be edited.
// That source has the contracts, and is proved. That this text means the same is only tested.

pub(crate) mod call;
pub(crate) mod conditions;
pub(crate) mod edited;
pub(crate) mod edits;
pub(crate) mod inlining;
pub(crate) mod keywords;
pub(crate) mod meaning;
pub(crate) mod reading;
pub(crate) mod slots;
pub(crate) mod values;
pub(crate) mod variables;

pub use call::{Argument, Call, Edit, InlinedCall, Obstacle};
pub use edited::apply_edits;
pub use inlining::inline_arguments;
