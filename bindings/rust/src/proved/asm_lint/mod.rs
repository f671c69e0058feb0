//! The findings of calls for inline assembly ([`read_asm`]) and of attributes
//! ([`read_attributes`]), with the literals and the places of a file.

// Extracted from crates/asm_lint/src/lib.rt by tools/extract: not to be edited.
// That source has the contracts, and is proved. That this text means the same is only tested.

pub(crate) mod asm_findings;
pub(crate) mod assembly;
pub(crate) mod attributes;
pub(crate) mod finding_labels;
pub(crate) mod literals;
pub(crate) mod messages;
pub(crate) mod names;
pub(crate) mod placing;
pub(crate) mod spans;

pub use assembly::{read_asm, reading_of};
pub use attributes::read_attributes;
pub use finding_labels::{labels, primary_span};
pub use literals::{appends_newline, dropped_crs, offset_in, read_literal, without_crs, Literal};
pub use names::{name_of, without_raw};
pub use spans::{call_range, range_in, spot_range, tokens_range, Site};
