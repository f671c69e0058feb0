//! The faults of the format strings of a Rust source file, from its text ([`file_faults`]).

// Extracted from crates/source_lint/src/lib.rt by tools/extract: not to be edited.
// That source has the contracts, and is proved. That this text means the same is only tested.

pub(crate) mod changed;
pub(crate) mod findings;
pub(crate) mod form_words;
pub(crate) mod givens;
pub(crate) mod labels;
pub(crate) mod lint;
pub(crate) mod macros;
pub(crate) mod readings;

pub use changed::changed_file_faults;
#[cfg(feature = "programs")]
pub use lint::own_file_faults;
pub use lint::{file_faults, read_calls, report_on, Readings};
#[cfg(feature = "programs")]
pub use macros::OwnMacro;
pub use macros::{macro_names, name_at, other_macro, File};
pub use readings::{argument_at, arguments_before, captures_variables, ends_early, index_or};
