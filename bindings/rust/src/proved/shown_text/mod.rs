//! Texts as they are shown: the gate ([`put_shown`]) through which paths, names, the words of
//! options and of the system, and messages go, in each [`Kind`] so that a terminal obeys nothing of
//! them, and that they stay in their line. Texts of files that a terminal gets have their own lines
//! ([`put_drawn`]).

// Extracted from crates/shown_text/src/lib.rt by tools/extract: not to be edited.
// That source has the contracts, and is proved. That this text means the same is only tested.

#[cfg(feature = "programs")]
pub(crate) mod drawn;
pub(crate) mod gate;

#[cfg(feature = "programs")]
pub use drawn::put_drawn;
pub use gate::{put_shown, Kind};
