//! Labels under lines of a source as rustc draws them: any number of them in a line, and one over
//! several lines.

// Extracted from crates/drawn_labels/src/lib.rt by tools/extract: not to be edited.
// That source has the contracts, and is proved. That this text means the same is only tested.

pub(crate) mod cells;
pub(crate) mod hanging;
pub(crate) mod labels;
pub(crate) mod long;
pub(crate) mod margin;
pub(crate) mod mark;
pub(crate) mod marks;
pub(crate) mod order;

pub use labels::{mark_in, Label};
pub use long::put_long_label;
pub use margin::window_of;
pub use mark::Mark;
pub use marks::put_mark_rows;
pub use order::marks_from_right;
