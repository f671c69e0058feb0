//! Paths as text. No path has a NUL. So in its text NUL and two digits in base 16 stand for a byte
//! that is not UTF-8, and the text of a path that is UTF-8 is the path itself.

// Extracted from crates/file_paths/src/escapes.rt by tools/extract: not to be edited.
// That source has the contracts, and is proved. That this text means the same is only tested.

use crate::shim::alloc::AllocError;
use crate::shim::prelude::*;

/// Returns whether the text of a path is the path itself, which is UTF-8 then.
#[inline]
pub fn is_plain(path: &str) -> bool {
    !path.contains('\0')
}

/// Returns the longest front of bytes that is UTF-8, and the bytes after it.
#[inline(never)]
fn split_text(bytes: &[u8]) -> (&str, &[u8]) {
    let error = match core::str::from_utf8(bytes) {
        Ok(text) => return (text, &[]),
        Err(error) => error,
    };
    let (front, rest) = bytes.split_at(error.valid_up_to());
    match core::str::from_utf8(front) {
        Ok(text) => (text, rest),
        Err(_) => ("", bytes),
    }
}

/// Returns a digit in base 16.
fn digit(number: u8) -> char {
    if number < 10 {
        (48 + number) as char
    } else {
        (87 + number) as char
    }
}

/// Adds the text of a byte that is not UTF-8.
fn put_escape(out: &mut String, byte: u8) -> Result<(), AllocError> {
    out.push('\0');
    out.push(digit(byte / 16));
    out.push(digit(byte % 16));
    Ok(())
}

/// Returns the text of a path. The path has no NUL.
#[inline(never)]
pub fn path_text(path: &[u8]) -> Result<String, AllocError> {
    let mut text = String::new();
    let (front, mut rest) = split_text(path);
    text.push_str(front);
    while let Some((byte, tail)) = rest.split_first() {
        put_escape(&mut text, *byte)?;
        let (front, rest_after) = split_text(tail);
        text.push_str(front);
        rest = rest_after;
    }
    Ok(text)
}

/// Returns the value of a digit in base 36, or 36 if the byte is none.
#[inline]
fn digit_value(byte: u8) -> u32 {
    (byte as char).to_digit(36).unwrap_or(36)
}

/// Returns the byte that two digits in base 16 name.
fn byte_named(high: u8, low: u8) -> u8 {
    ((digit_value(high) * 16 + digit_value(low)) % 256) as u8
}

/// Returns the first byte of the path of a text, and the text of the rest, or `None` for no text.
#[inline(never)]
fn split_byte(text: &[u8]) -> Option<(u8, &[u8])> {
    let (byte, tail) = text.split_first()?;
    if *byte != 0 {
        return Some((*byte, tail));
    }
    let Some((high, tail_after)) = tail.split_first() else {
        return Some((0, tail));
    };
    let Some((low, rest)) = tail_after.split_first() else {
        return Some((0, tail));
    };
    Some((byte_named(*high, *low), rest))
}

/// Returns the path of a text.
#[inline(never)]
pub fn path_bytes(text: &str) -> Result<Vec<u8>, AllocError> {
    let mut path = Vec::new();
    let mut rest = text.as_bytes();
    while let Some((byte, tail)) = split_byte(rest) {
        path.push(byte);
        rest = tail;
    }
    Ok(path)
}

/// Returns the text before the first NUL and that after it, or `None` if there is none.
#[inline]
fn around_nul(text: &str) -> Option<(&str, &str)> {
    text.split_once('\0')
}

/// Returns the path of a text as messages have it: with `\x` and two digits for a byte that is not
/// UTF-8.
#[inline(never)]
pub fn shown_path(text: &str) -> Result<String, AllocError> {
    let mut shown = String::new();
    let mut rest = text;
    while let Some((front, tail)) = around_nul(rest) {
        shown.push_str(front);
        shown.push_str("\\x");
        rest = tail;
    }
    shown.push_str(rest);
    Ok(shown)
}
