//! Diagnostics for the one who wrote a source: [`draw_labels`] draws one under its source, as rustc
//! does, and [`draw`] an error of the parser.

// Extracted from crates/drawn_faults/src/lib.rt by tools/extract: not to be edited.
// That source has the contracts, and is proved. That this text means the same is only tested.

pub(crate) mod diagnostics;
pub(crate) mod drawing;
pub(crate) mod helps;
pub(crate) mod marked;
pub(crate) mod notes;

#[cfg(feature = "programs")]
pub use diagnostics::{put_labels, Diagnostic, Level, SourceLabel};
pub use drawing::draw;
#[cfg(feature = "programs")]
pub use drawing::put_drawing;
#[cfg(feature = "programs")]
pub use helps::SourceHelp;
#[cfg(feature = "programs")]
pub use notes::SourceNote;
