//! The reason why a text is no string literal of Rust, and its place, in the words of rustc
//! ([`literal_fault`]). In a file white space may be around the literal ([`file_fault`]).

// Extracted from crates/literal_faults/src/lib.rt by tools/extract: not to be edited.
// That source has the contracts, and is proved. That this text means the same is only tested.

pub(crate) mod escapes;
pub(crate) mod fault;
pub(crate) mod margins;
pub(crate) mod stops;
pub(crate) mod words;

pub use fault::LiteralFault;
pub use margins::{file_fault, snippet_of};
