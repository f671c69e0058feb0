//! The edits that the suggestions of faults in a string literal have: [`edits`] finds them, and
//! [`fix`] applies them.

// Extracted from crates/fault_fixes/src/lib.rt by tools/extract: not to be edited.
// That source has the contracts, and is proved. That this text means the same is only tested.

pub(crate) mod errors;
pub(crate) mod fixes;
pub(crate) mod rounds;

pub use errors::errors_of;
pub use fixes::{edits, is_offered, Edit, FixedLiteral};
pub use rounds::fix;
