//! Token trees of Rust source text: the tokens of a file without white space and comments, and the
//! pairs of delimiters among them.

// Extracted from crates/rust_trees/src/lib.rt by tools/extract: not to be edited.
// That source has the contracts, and is proved. That this text means the same is only tested.

pub(crate) mod balance;
pub(crate) mod leaves;
pub(crate) mod matching;
pub(crate) mod places;
pub(crate) mod sides;
pub(crate) mod source;

pub use balance::{Balance, BreakKind, FileBreak};
pub use leaves::{Token, Tokens};
pub use matching::DelimiterBreak;
#[cfg(feature = "programs")]
pub use places::place_at;
pub use places::{Place, Places};
pub use sides::{is_opening, Delimiter, Side};
pub use source::Source;
