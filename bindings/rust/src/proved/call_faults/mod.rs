//! The faults of a format string and of the arguments of its call, as rustc reports them.

// Extracted from crates/call_faults/src/lib.rt by tools/extract: not to be edited.
// That source has the contracts, and is proved. That this text means the same is only tested.

pub(crate) mod arguments;
pub(crate) mod checker;
pub(crate) mod comparison;
pub(crate) mod directives;
pub(crate) mod faults;
pub(crate) mod helps;
pub(crate) mod labels;
pub(crate) mod lookups;
pub(crate) mod missing_labels;
pub(crate) mod notes;
pub(crate) mod spots;
pub(crate) mod titles;

pub use arguments::FormatArgument;
pub use checker::{call_faults, CallReport, FormatString};
pub use faults::{CallFault, InvalidReference, Part, Reference};
pub use spots::{CallEdit, CallHelp, CallNote};
