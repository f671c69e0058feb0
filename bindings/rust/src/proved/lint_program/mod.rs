//! The parts of the program `formatlint` that need no source file: its options, the values of its
//! arguments, the run over one string, its lines where there is no answer, and how it writes files.

// Extracted from crates/lint_program/src/lib.rt by tools/extract: not to be edited.
// That source has the contracts, and is proved. That this text means the same is only tested.

pub(crate) mod arguments;
pub(crate) mod changes;
pub(crate) mod colours;
pub(crate) mod failure;
pub(crate) mod literal;
pub(crate) mod messages;
pub(crate) mod open_files;
pub(crate) mod options;
pub(crate) mod progress;
pub(crate) mod recorder;
pub(crate) mod terminal;

pub use arguments::{change_of, form_of, has_colours, table_of, width_of};
pub use changes::{name_before, replace, Change, LeftText, StepFailure};
pub use failure::Failure;
pub use literal::{literal_status, print_failure, print_hint};
pub use messages::{put_failure, put_place_failure, system_words};
pub use open_files::{is_same, path_of};
pub use options::{command, is_option, VERSION};
pub use progress::Progress;
pub use recorder::Recorder;
pub use terminal::shown_bytes;
