//! The report on a Rust source file ([`Report`]), and a text with the edits that mend its faults
//! ([`mend_each`]).

// Extracted from crates/source_report/src/lib.rt by tools/extract: not to be edited.
// That source has the contracts, and is proved. That this text means the same is only tested.

pub(crate) mod edited;
pub(crate) mod report;
pub(crate) mod suggestions;

pub use edited::mend_each;
pub use report::{CallReading, Edit, Finding, Help, Label, Note, Options, Report};
pub use suggestions::{are_after, edits_of, is_applicable};
#[cfg(feature = "programs")]
pub use suggestions::{suggestion_of, LabelSuggestion};
