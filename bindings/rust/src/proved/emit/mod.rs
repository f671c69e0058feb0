//! The findings of a file in each [`Form`] of messages ([`put_start`], [`put_finding`],
//! [`put_end`]): drawn under the lines of the file, a line for an editor, a line of JSON as rustc
//! writes it, a workflow command of GitHub, and a log of SARIF.

// Extracted from crates/emit/src/lib.rt by tools/extract: not to be edited.
// That source has the contracts, and is proved. That this text means the same is only tested.

pub(crate) mod escapes;
pub(crate) mod file;
pub(crate) mod form;
pub(crate) mod github;
pub(crate) mod human;
pub(crate) mod json_findings;
pub(crate) mod json_lines;
pub(crate) mod members;
pub(crate) mod message;
pub(crate) mod sarif;
pub(crate) mod short;

pub use file::File;
pub use form::{put_end, put_finding, put_start, Form};
