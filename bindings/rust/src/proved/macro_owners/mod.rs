//! Whose macro a name is for certain: that of std or of a known crate, by the tokens of all files
//! of a package ([`Facts`]), without compiling. And the macros that a file defines by
//! `macro_rules!` and that hand their tokens on to a macro whose format string is known: which
//! argument of theirs is one ([`own_rows`]).

// Extracted from crates/macro_owners/src/lib.rt by tools/extract: not to be edited.
// That source has the contracts, and is proved. That this text means the same is only tested.

#[cfg(feature = "programs")]
pub(crate) mod arms;
pub(crate) mod certain;
pub(crate) mod context;
pub(crate) mod facts;
#[cfg(feature = "programs")]
pub(crate) mod given;
#[cfg(feature = "programs")]
pub(crate) mod indexed_words;
#[cfg(feature = "programs")]
pub(crate) mod lefts;
pub(crate) mod names;
#[cfg(feature = "programs")]
pub(crate) mod own;
#[cfg(feature = "programs")]
pub(crate) mod rights;
pub(crate) mod words;

pub use certain::is_certain;
#[cfg(feature = "programs")]
pub use certain::{certain_table, likely_table};
pub use facts::Facts;
#[cfg(feature = "programs")]
pub use given::{given_names, Given};
#[cfg(feature = "programs")]
pub use own::own_rows;
#[cfg(feature = "programs")]
pub use words::{is_mark, is_named};
