//! Texts as the forms have them. A function whose name begins with `put_` appends to `out`.

// Extracted from crates/emit/src/escapes.rt by tools/extract: not to be edited.
// That source has the contracts, and is proved. That this text means the same is only tested.

use crate::proved::file_paths::path_bytes;
use crate::proved::shown_text::{put_shown, Kind};
use crate::shim::alloc::AllocError;
use crate::shim::itoa::Buffer;
use crate::shim::prelude::*;

/// Adds a number in decimal digits.
pub fn put_number(out: &mut String, number: usize) -> Result<(), AllocError> {
    let mut digits = Buffer::new();
    out.push_str(digits.format(number));
    Ok(())
}

/// Returns a digit of base 16 in upper case.
fn upper_digit(digit: u8) -> char {
    if digit < 10 {
        (48 + digit) as char
    } else {
        (55 + digit) as char
    }
}

/// Adds a text as a string of JSON.
pub fn put_quoted(out: &mut String, text: &str) -> Result<(), AllocError> {
    out.push_str("\"");
    put_shown(out, Kind::Json, text)?;
    out.push_str("\"");
    Ok(())
}

/// Returns whether a byte stands for itself in a path of a URI.
fn stays_in_uri(byte: u8) -> bool {
    byte.is_ascii_alphanumeric() || matches!(byte, b'-' | b'.' | b'/' | b'_' | b'~')
}

/// Adds a byte as a path of a URI has it.
#[inline(never)]
fn put_uri_byte(out: &mut String, byte: u8) -> Result<(), AllocError> {
    if stays_in_uri(byte) {
        return Ok(out.push(byte as char));
    }
    out.push('%');
    out.push(upper_digit(byte / 16));
    out.push(upper_digit(byte % 16));
    Ok(())
}

/// Adds a path of a file as a URI: one from the root with its scheme, another as a relative one.
#[inline(never)]
pub fn put_uri(out: &mut String, path: &str) -> Result<(), AllocError> {
    if path.starts_with('/') {
        out.push_str("file://");
    }
    for byte in &path_bytes(path)? {
        put_uri_byte(out, *byte)?;
    }
    Ok(())
}
