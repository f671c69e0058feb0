//! The Cargo.toml and the clippy.toml above a file, and what these say of it: its edition, versions
//! of Rust, levels of lints, targets and dependencies.

// Extracted from crates/manifest/src/lib.rt by tools/extract: not to be edited.
// That source has the contracts, and is proved. That this text means the same is only tested.

pub(crate) mod dependencies;
pub(crate) mod document;
pub(crate) mod facts;
pub(crate) mod lints;
pub(crate) mod packages;
pub(crate) mod settings;
pub(crate) mod targets;
pub(crate) mod versions;
pub use facts::Misfit;
pub use packages::{FileRules, ManifestFailure, ManifestFault, Package, Packages};
pub use versions::{captures_variables, version_named};
