//! The faults of templates of inline assembly and of the operands of their call, as rustc reports
//! them.

// Extracted from crates/asm_faults/src/lib.rt by tools/extract: not to be edited.
// That source has the contracts, and is proved. That this text means the same is only tested.

pub(crate) mod checker;
pub(crate) mod comparison;
pub(crate) mod faults;
pub(crate) mod labels;
pub(crate) mod lookups;
pub(crate) mod notes;
pub(crate) mod operands;
pub(crate) mod templates;
pub(crate) mod titles;

pub use checker::{asm_faults, AsmCall};
pub use faults::{AsmFault, AsmSpot};
pub use labels::AsmLabel;
pub use notes::AsmNote;
pub use operands::Operand;
pub use templates::Template;
