//! The text of a manifest, read as TOML.

// Extracted from crates/manifest/src/document.rt by tools/extract: not to be edited.
// That source has the contracts, and is proved. That this text means the same is only tested.

use crate::shim::toml::{table_from_str, Value};

/// The reason why a text has no value.
#[derive(Clone, Copy)]
pub enum Refusal {
    /// An allocation failed.
    Memory,
    /// The text is no TOML, which shows at this byte offset.
    Syntax(usize),
}

/// Returns the table that a text is in TOML 1.1, which cargo reads. A byte order mark is passed
/// over. Returns `Err` if it is no TOML, or an allocation fails.
#[inline(never)]
pub fn read_toml(text: &str) -> Result<Value, Refusal> {
    match table_from_str(text) {
        Ok(members) => Ok(Value::Table(members)),
        Err(error) => match error.span() {
            Some(range) => Err(Refusal::Syntax(range.start)),
            None => Err(Refusal::Memory),
        },
    }
}
