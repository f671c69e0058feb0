//! The string literals of a file, as rustc reads them: with lines that end with LF.

// Extracted from crates/asm_lint/src/literals.rt by tools/extract: not to be edited.
// That source has the contracts, and is proved. That this text means the same is only tested.

use crate::proved::piece_listing::literal::{literal_text, LiteralText};
use crate::proved::rust_tokens::split_first;
use crate::shim::alloc::AllocError;
use crate::shim::prelude::*;

/// A string literal that stands for a text.
pub struct Literal {
    /// The literal, with lines that end with LF.
    pub snippet: String,
    /// The text, with the newline that the macro appends.
    pub text: String,
    /// `None` for an ordinary literal, and the number of hashes of a raw one.
    pub style: Option<usize>,
}

/// Returns whether a text begins with LF.
fn begins_line(text: &str) -> bool {
    match split_first(text) {
        Some((c, _)) => c == '\n',
        None => false,
    }
}

/// Returns whether a character is a CR before an LF, where `rest` follows it.
#[inline]
fn is_dropped(c: char, rest: &str) -> bool {
    c == '\r' && begins_line(rest)
}

/// Returns a text without the CR before each LF.
#[inline(never)]
pub fn without_crs(text: &str) -> Result<String, AllocError> {
    if !text.contains('\r') {
        return Ok(String::from(text));
    }
    let mut lines = String::new();
    let mut rest = text;
    while let Some((c, more)) = split_first(rest) {
        if !is_dropped(c, more) {
            lines.push(c);
        }
        rest = more;
    }
    Ok(lines)
}

/// Returns whether a macro of this name appends a newline to its format string.
pub fn appends_newline(name: &[u8]) -> bool {
    name == b"println".as_slice() || name == b"eprintln".as_slice() || name == b"writeln".as_slice()
}

/// Appends a newline to a text, or nothing.
fn put_newline(text: &mut String, appended: bool) -> Result<(), AllocError> {
    if appended {
        text.push('\n');
        return Ok(());
    }
    Ok(())
}

/// Reads the literal that a token is, and appends a newline to its text or not. Returns `None` if
/// it stands for no text, and `Err` if an allocation fails.
#[inline(never)]
pub fn read_literal(token: &str, appended_newline: bool) -> Result<Option<Literal>, AllocError> {
    let snippet = without_crs(token)?;
    let Some(LiteralText { mut text, style }) = literal_text(snippet.as_str())? else {
        return Ok(None);
    };
    put_newline(&mut text, appended_newline)?;
    Ok(Some(Literal {
        snippet,
        text,
        style,
    }))
}

/// Returns the CRs of a token that its literal with lines that end with LF does not have, each as
/// the byte offset in that literal of the LF after it, in ascending order.
#[inline(never)]
pub fn dropped_crs(token: &str) -> Result<Vec<usize>, AllocError> {
    let mut offsets = Vec::new();
    if !token.contains('\r') {
        return Ok(offsets);
    }
    let mut rest = token;
    while let Some((c, more)) = split_first(rest) {
        if is_dropped(c, more) {
            let front_len = token.len().saturating_sub(rest.len());
            offsets.push(front_len.saturating_sub(offsets.len()));
        }
        rest = more;
    }
    Ok(offsets)
}

/// Returns the byte offset in a token of a byte offset in its literal with lines that end with LF,
/// which does not have these CRs: those before it count. The CRs are those of [`dropped_crs`].
#[inline(never)]
pub fn offset_in(crs: &[usize], offset: usize) -> usize {
    let mut low = 0;
    let mut high = crs.len();
    while low < high {
        let middle = low + (high - low) / 2;
        if crs[middle] < offset {
            low = middle + 1;
        } else {
            high = middle;
        }
    }
    offset.saturating_add(low)
}
