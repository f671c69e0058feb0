//! The faults of a text of the attribute `diagnostic::on_unimplemented`, as rustc reports them.

// Extracted from crates/message_faults/src/lib.rt by tools/extract: not to be edited.
// That source has the contracts, and is proved. That this text means the same is only tested.

pub(crate) mod checker;
pub(crate) mod diagnostics;
pub(crate) mod faults;
pub(crate) mod words;

pub use checker::{message_faults, names_of, Message};
pub use faults::MessageFault;
