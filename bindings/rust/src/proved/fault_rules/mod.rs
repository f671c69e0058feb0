//! The meanings of faults, by their ids: [`RULES`] has a rule for each kind, with an example and
//! its correction.

// Extracted from crates/fault_rules/src/lib.rt by tools/extract: not to be edited.
// That source has the contracts, and is proved. That this text means the same is only tested.

pub(crate) mod explanation;
pub(crate) mod rules;

pub use explanation::put_explanation;
pub use rules::{rule_of, Rule, RULES};
