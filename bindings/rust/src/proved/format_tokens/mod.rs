//! The tokens of a format string, as an editor shows them in colours.

// Extracted from crates/format_tokens/src/lib.rt by tools/extract: not to be edited.
// That source has the contracts, and is proved. That this text means the same is only tested.

pub(crate) mod culprits;
pub(crate) mod escapes;
pub(crate) mod kinds;
pub(crate) mod lexer;
pub(crate) mod parts;
pub(crate) mod places;
pub(crate) mod walk;

#[cfg(feature = "programs")]
pub use kinds::Label;
pub use kinds::{Kind, Token};
#[cfg(feature = "programs")]
pub use lexer::place_labels;
pub use lexer::tokens;
#[cfg(feature = "programs")]
pub use walk::label;
