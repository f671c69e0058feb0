//! How a character is written in an error message and in a quoted text.

// Extracted from crates/rustc_parse_format/src/escapes.rt by tools/extract: not to be edited.
// That source has the contracts, and is proved. That this text means the same is only tested.

use crate::proved::rustc_parse_format::characters::Class;
use crate::proved::rustc_parse_format::literal::Rest;
use crate::shim::alloc::AllocError;
use crate::shim::prelude::*;

/// Returns the short escape of a character, or `None` if it has none.
#[inline]
fn short_escape(c: char) -> Option<&'static str> {
    match c {
        '\0' => Some("\\0"),
        '\t' => Some("\\t"),
        '\r' => Some("\\r"),
        '\n' => Some("\\n"),
        '\'' => Some("\\'"),
        '"' => Some("\\\""),
        '\\' => Some("\\\\"),
        _ => None,
    }
}

/// Appends a character that has no short escape: an ASCII control character as `\u{..}`, any other
/// as it is.
#[inline]
fn put_plainly_written(out: &mut String, c: char) -> Result<(), AllocError> {
    let code = u32::from(c);
    if code < 32 || code == 127 {
        // formatted on its own first: `write!` does not promise what it leaves in `out` if it fails
        let escape = ::alloc::format!("\\u{{{code:x}}}");
        out.push_str(&escape);
    } else {
        out.try_push(c)?;
    }
    Ok(())
}

/// Appends a character, escaped if it has an escape or is an ASCII control character.
#[inline]
pub fn put_written(out: &mut String, c: char) -> Result<(), AllocError> {
    match short_escape(c) {
        Some(escape) => out.push_str(escape),
        None => put_plainly_written(out, c)?,
    }
    Ok(())
}

/// Appends a run of characters, which is often empty.
#[inline(always)]
fn push_run(out: &mut String, run: &str) -> Result<(), AllocError> {
    if run.is_empty() {
        return Ok(());
    }
    out.try_push_str(run)
}

/// Appends the characters that come next and are written as they are.
#[inline(always)]
fn put_unchanged(out: &mut String, rest: &mut Rest<'_>) -> Result<(), AllocError> {
    push_run(out, rest.take_run(Class::Unchanged))?;
    Ok(())
}

/// Appends the characters of a text, each as [`put_written`] does.
#[inline]
pub fn put_all_written(out: &mut String, text: &str) -> Result<(), AllocError> {
    let mut rest = Rest::new(text);
    put_unchanged(out, &mut rest)?;
    while let Some(c) = rest.next() {
        put_written(out, c)?;
        put_unchanged(out, &mut rest)?;
    }
    Ok(())
}
