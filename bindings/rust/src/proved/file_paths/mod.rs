//! Paths of files, which are bytes, as text ([`path_text`], [`path_bytes`]), and calls of the
//! system by such a text ([`fs`]).

// Extracted from crates/file_paths/src/lib.rt by tools/extract: not to be edited.
// That source has the contracts, and is proved. That this text means the same is only tested.

pub(crate) mod escapes;
#[cfg(feature = "programs")]
pub use escapes::shown_path;
pub use escapes::{is_plain, path_bytes, path_text};
