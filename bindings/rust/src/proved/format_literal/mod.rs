//! A string literal as it stands in a program, read as a format string: [`Literal`] holds the
//! arguments that the calls of `rustc_parse_format` and of the crates above it take, and makes
//! these calls.

// Extracted from crates/format_literal/src/lib.rt by tools/extract: not to be edited.
// That source has the contracts, and is proved. That this text means the same is only tested.

pub(crate) mod validity;
pub(crate) mod values;

pub use values::Literal;
