//! The text of a file without the margins that may be around a literal.

// Extracted from crates/literal_faults/src/margins.rt by tools/extract: not to be edited.
// That source has the contracts, and is proved. That this text means the same is only tested.

use crate::proved::literal_faults::fault::{literal_fault, LiteralFault};
use crate::proved::rust_tokens::split_first;
use crate::shim::prelude::*;

/// The text of a file without its margins.
#[derive(Clone, Copy, Debug)]
pub struct Snippet<'a> {
    /// The file without the byte order mark at its start.
    pub source: &'a str,
    /// The text.
    pub text: &'a str,
    /// The byte offset in `source` at which the text starts.
    pub start: usize,
}

/// Returns the rest of a file after the byte order mark at its start, if it has one.
fn after_mark(file: &str) -> &str {
    let Some((c, rest)) = split_first(file) else {
        return file;
    };
    if c == '\u{feff}' {
        rest
    } else {
        file
    }
}

/// Returns the text of a file without the byte order mark at its start and without the ASCII white
/// space before and after the rest: the literal, if the file has a string literal and nothing else.
/// Does not allocate.
#[inline(never)]
pub fn snippet_of(file: &str) -> Snippet<'_> {
    let source = after_mark(file);
    let rest = source.after_ascii_space();
    Snippet {
        source,
        text: rest.before_ascii_space(),
        start: source.len() - rest.len(),
    }
}

/// Returns the reason why a file does not hold a string literal alone, with its place in the file,
/// or `None` if it does. A byte order mark at the start of the file and ASCII white space around
/// the literal are skipped ([`snippet_of`]). Does not allocate.
#[inline(never)]
pub fn file_fault(file: &str) -> Option<LiteralFault> {
    let snippet = snippet_of(file);
    let fault = literal_fault(snippet.text)?;
    Some(LiteralFault {
        kind: fault.kind,
        offset: file.len() - snippet.source.len() + snippet.start + fault.offset,
    })
}
