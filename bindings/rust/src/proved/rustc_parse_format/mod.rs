//! A port of rustc's `rustc_parse_format`: a parser for format strings, inline assembly templates
//! and the texts of diagnostic attributes.
//!
//! [`Parser`] reads an input piece by piece, [`read_all`] reads a whole input, and [`literal`] is
//! about the string literals that an input may come from. A *fault* is one thing that is wrong in
//! an input, as plain data ([`Fault`]); an *error* is the message that a parser makes of it
//! ([`ParseError`]). After a fault, parsing goes on.
//!
//! All offsets and lengths are in bytes, and spans and places are byte ranges of the source. If the
//! snippet is the source literal of the input, the source is the snippet. Otherwise a span is that
//! in a literal that has the input unescaped after its opening quote: 1 more than in the input, or
//! for a raw literal its number of hashes plus 2 more. Only the end of the text is then elsewhere:
//! at the length of the snippet, or without a snippet at the length of the input less an appended
//! newline. No quote is counted there, so a span up to the end may be empty or end before it
//! starts.
//!
//! A call that may allocate takes the allocator, `alloc`, or uses the one that its parser was
//! created with. On an allocation failure it returns `AllocError`, and the parser is then
//! unchanged. docs/RATTLE.md lists the calls, docs/PROMISES.md what is proved of each.

// Extracted from crates/rustc_parse_format/src/lib.rt by tools/extract: not to be edited.
// That source has the contracts, and is proved. That this text means the same is only tested.

pub(crate) mod blocks;
pub(crate) mod call;
pub(crate) mod characters;
pub(crate) mod counts;
pub(crate) mod cursor;
pub(crate) mod error_list;
pub(crate) mod escapes;
#[cfg(feature = "lint")]
pub(crate) mod fault_ids;
pub(crate) mod faults;
pub mod laws;
pub mod literal;
pub(crate) mod messages;
pub(crate) mod methods;
pub(crate) mod parser;
pub(crate) mod placeholder;
pub(crate) mod reader;
pub(crate) mod recover;
pub(crate) mod source;
pub(crate) mod specification;
pub(crate) mod types;

#[cfg(feature = "lint")]
#[doc(hidden)]
pub use blocks::{front_width, Stops};
#[cfg(feature = "formatread")]
#[doc(hidden)]
pub use escapes::{put_all_written, put_written};
#[cfg(feature = "lint")]
pub use faults::Fault;
pub use types::{
    Alignment, Argument, Count, DebugHex, FormatSpec, ParseError, ParseMode, Piece, Position, Sign,
    Suggestion,
};
#[cfg(any(feature = "lint", feature = "formatread"))]
pub use types::{NextPiece, PieceKind};
