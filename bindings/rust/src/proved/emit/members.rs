//! Members of objects of JSON. A function whose name begins with `put_` appends to `out`, and
//! returns `Err` if an allocation fails. `is_later` is whether another member of the object comes
//! before.

// Extracted from crates/emit/src/members.rt by tools/extract: not to be edited.
// That source has the contracts, and is proved. That this text means the same is only tested.

use crate::proved::emit::escapes::{put_number, put_quoted};
use crate::shim::alloc::AllocError;
use crate::shim::prelude::*;

/// Returns the text before a member: the brace of its object, or a comma after another member.
#[inline]
fn opening(is_later: bool) -> &'static str {
    if is_later {
        ","
    } else {
        "{"
    }
}

/// Adds the key of a member.
pub fn put_key(out: &mut String, is_later: bool, key: &str) -> Result<(), AllocError> {
    out.push_str(opening(is_later));
    put_quoted(out, key)?;
    out.push_str(":");
    Ok(())
}

/// Adds the end of an object that has members.
#[inline]
pub fn put_end(out: &mut String) -> Result<(), AllocError> {
    out.push_str("}");
    Ok(())
}

/// Adds a text as a value.
#[inline]
fn put_string(out: &mut String, text: &str) -> Result<(), AllocError> {
    put_quoted(out, text)?;
    Ok(())
}

/// Adds a text or `null` as a value.
fn put_string_or_null(out: &mut String, text: Option<&str>) -> Result<(), AllocError> {
    match text {
        Some(text) => put_quoted(out, text)?,
        None => out.push_str("null"),
    }
    Ok(())
}

/// Adds a number as a value.
#[inline]
fn put_digits(out: &mut String, number: usize) -> Result<(), AllocError> {
    put_number(out, number)?;
    Ok(())
}

/// Adds a truth value.
fn put_bool(out: &mut String, value: bool) -> Result<(), AllocError> {
    out.push_str(if value { "true" } else { "false" });
    Ok(())
}

/// Adds a member with a text.
pub fn put_text(out: &mut String, is_later: bool, key: &str, text: &str) -> Result<(), AllocError> {
    put_key(out, is_later, key)?;
    put_string(out, text)?;
    Ok(())
}

/// Adds a member with a text, or with `null`, after another one.
pub fn put_text_or_null(out: &mut String, key: &str, text: Option<&str>) -> Result<(), AllocError> {
    put_key(out, true, key)?;
    put_string_or_null(out, text)?;
    Ok(())
}

/// Adds a member with a number.
pub fn put_count(
    out: &mut String,
    is_later: bool,
    key: &str,
    number: usize,
) -> Result<(), AllocError> {
    put_key(out, is_later, key)?;
    put_digits(out, number)?;
    Ok(())
}

/// Adds a member with a truth value.
pub fn put_truth(
    out: &mut String,
    is_later: bool,
    key: &str,
    value: bool,
) -> Result<(), AllocError> {
    put_key(out, is_later, key)?;
    put_bool(out, value)?;
    Ok(())
}

/// Adds a comma, if the item that follows comes after another one.
#[inline]
pub fn put_comma(out: &mut String, is_later: bool) -> Result<(), AllocError> {
    if is_later {
        out.push_str(",");
    }
    Ok(())
}
