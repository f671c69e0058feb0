//! The listing of a format string as JSON ([`list`]): a line for each piece, each fault and each
//! argument that is missing or unused.

// Extracted from crates/listing_json/src/lib.rt by tools/extract: not to be edited.
// That source has the contracts, and is proved. That this text means the same is only tested.

pub(crate) mod calls;
pub(crate) mod faults;
pub(crate) mod fields;
pub(crate) mod listing;
pub(crate) mod pieces;
pub(crate) mod report;

pub use listing::{list, Listing};
