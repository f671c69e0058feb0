//! The list of a parser's errors, which grows at both ends.

// Extracted from crates/rustc_parse_format/src/error_list.rt by tools/extract: not to be edited.
// That source has the contracts, and is proved. That this text means the same is only tested.

use crate::proved::rustc_parse_format::faults::Fault;
use crate::proved::rustc_parse_format::messages::set_error;
use crate::proved::rustc_parse_format::types::{ParseError, Suggestion};
use crate::shim::alloc::AllocError;
use crate::shim::prelude::*;

/// Returns an error whose texts are empty. Does not allocate.
#[inline]
pub fn empty_error() -> ParseError {
    ParseError {
        description: String::new(),
        note: None,
        label: String::new(),
        span: 0..0,
        secondary_label: None,
        suggestion: Suggestion::None,
    }
}

impl Fault<'_> {
    /// Returns the error of the fault, as a parser has it in its list.
    #[inline]
    pub(crate) fn error(&self) -> Result<ParseError, AllocError> {
        let mut error = empty_error();
        set_error(&mut error, self)?;
        Ok(error)
    }
}
