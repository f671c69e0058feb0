//! String literals that are read as format strings.

// Extracted from crates/format_literal/src/values.rt by tools/extract: not to be edited.
// That source has the contracts, and is proved. That this text means the same is only tested.

use crate::proved::format_literal::validity::is_written;
use crate::proved::piece_listing::literal::{literal_text, LiteralText};
use crate::proved::rustc_parse_format::ParseMode;
use crate::shim::alloc::AllocError;
use crate::shim::prelude::*;

/// A string literal that is read as a format string: the five arguments that calls over an input
/// take, in one value, and these calls. All spans are byte ranges of the literal, with its quotes
/// and escapes.
#[derive(Clone, Debug, Eq, PartialEq)]
pub struct Literal<'a> {
    /// The text that the literal stands for, with the appended newline if there is one.
    pub text: String,
    /// The number of hashes of a raw literal, or `None` for an ordinary one.
    pub style: Option<usize>,
    /// The literal as it is in the source.
    pub snippet: &'a str,
    /// Whether the text ends in a newline that is not in the literal.
    pub appended_newline: bool,
    /// As which kind of text it is read.
    pub mode: ParseMode,
}

impl<'a> Literal<'a> {
    /// Reads a string literal by the rules of the Rust Reference, `"..."` or `r#"..."#` with any
    /// number of hashes. Its lines end with LF. Returns `None` if the source is no such literal:
    /// for example with a prefix `b` or `c`, a suffix, or white space around it.
    #[inline(never)]
    pub(crate) fn read(
        source: &'a str,
        mode: ParseMode,
    ) -> Result<Option<Literal<'a>>, AllocError> {
        let Some(LiteralText { text, style }) = literal_text(source)? else {
            return Ok(None);
        };
        if !is_written(source, style, &text) {
            return Ok(None);
        }
        Ok(Some(Literal {
            text,
            style,
            snippet: source,
            appended_newline: false,
            mode,
        }))
    }
}
