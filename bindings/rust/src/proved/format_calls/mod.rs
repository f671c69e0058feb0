//! Calls of macros that take a format string, in Rust source text.

// Extracted from crates/format_calls/src/lib.rt by tools/extract: not to be edited.
// That source has the contracts, and is proved. That this text means the same is only tested.

pub(crate) mod assembly;
pub(crate) mod extents;
pub(crate) mod gap_texts;
pub(crate) mod listing;
pub(crate) mod marks;
pub(crate) mod modes;
pub(crate) mod part;
pub(crate) mod parts;
pub(crate) mod split;
pub(crate) mod strings;
pub(crate) mod table;

pub use assembly::{asm_part, template_count, AsmPart};
pub use extents::extent_of;
pub use gap_texts::{next_known_part, Gaps};
pub use listing::{calls, Call};
pub use marks::{is_mark, is_mark_of, is_word, token_at, word};
pub use modes::{is_joint, is_text};
pub use part::Part;
pub use parts::next_part;
pub use split::{arguments, closing_token, Argument};
pub use strings::{format_string, is_text_leaf, Reason};
pub use table::{is_of_crates, is_standard, Row, Rule, Table};
