//! The faults of escapes.

// Extracted from crates/literal_faults/src/escapes.rt by tools/extract: not to be edited.
// That source has the contracts, and is proved. That this text means the same is only tested.

use crate::proved::literal_faults::fault::FaultKind;
use crate::proved::rust_tokens::split_first;

/// The most digits that a Unicode escape may have.
const MOST_DIGITS: usize = 6;

/// Returns the value of a hexadecimal digit, or `None` if the character is none.
#[inline]
fn hex_digit(c: char) -> Option<u32> {
    c.to_digit(16)
}

/// Returns the rest after the hexadecimal digit of a byte escape, or the fault if no digit comes
/// next.
#[inline(never)]
fn after_digit(text: &str) -> Result<&str, FaultKind> {
    match split_first(text) {
        None => Err(FaultKind::UnterminatedString),
        Some((c, rest)) => {
            if hex_digit(c).is_some() {
                Ok(rest)
            } else if c == '"' {
                Err(FaultKind::TooShortHexEscape)
            } else {
                Err(FaultKind::InvalidCharInHexEscape(c))
            }
        }
    }
}

/// Returns the fault of a byte escape, by the text after its `\x`.
#[inline(never)]
fn byte_fault(text: &str) -> FaultKind {
    let first = match after_digit(text) {
        Ok(rest) => rest,
        Err(kind) => return kind,
    };
    match after_digit(first) {
        Ok(_) => FaultKind::OutOfRangeHexEscape,
        Err(kind) => kind,
    }
}

/// Returns the number that the hexadecimal digits at the start of a text write, `_` between them
/// aside, or `None` if there are more than `MOST_DIGITS`.
#[inline(never)]
fn number(text: &str) -> Option<u32> {
    let mut count = 0;
    let mut value: u32 = 0;
    let mut rest = text;
    while let Some((c, more)) = split_first(rest) {
        if let Some(digit) = hex_digit(c) {
            if count == MOST_DIGITS {
                return None;
            }
            value = value * 16 + digit;
            count += 1;
        } else if c != '_' {
            return Some(value);
        }
        rest = more;
    }
    Some(value)
}

/// Returns the fault of the number that the digits at the start of a text write.
fn number_fault(text: &str) -> FaultKind {
    match number(text) {
        None => FaultKind::OverlongUnicodeEscape,
        Some(value) => {
            if value > 0x10_FFFF {
                FaultKind::OutOfRangeUnicodeEscape
            } else {
                FaultKind::LoneSurrogateUnicodeEscape
            }
        }
    }
}

/// Returns the rest of a text after the hexadecimal digits and `_` at its start.
#[inline(never)]
fn after_digits(text: &str) -> &str {
    let mut rest = text;
    while let Some((c, more)) = split_first(rest) {
        if hex_digit(c).is_none() && c != '_' {
            return rest;
        }
        rest = more;
    }
    rest
}

/// Returns the fault of a Unicode escape, by the text after its opening brace.
#[inline(never)]
fn braces_fault(text: &str) -> FaultKind {
    match split_first(text) {
        Some(('_', _)) => return FaultKind::LeadingUnderscoreUnicodeEscape,
        Some(('}', _)) => return FaultKind::EmptyUnicodeEscape,
        _ => {}
    }
    match split_first(after_digits(text)) {
        None => FaultKind::UnterminatedString,
        Some(('}', _)) => number_fault(text),
        Some(('"', _)) => FaultKind::UnclosedUnicodeEscape,
        Some((c, _)) => FaultKind::InvalidCharInUnicodeEscape(c),
    }
}

/// Returns the fault of a Unicode escape, by the text after its `\u`.
fn unicode_fault(text: &str) -> FaultKind {
    match split_first(text) {
        None => FaultKind::UnterminatedString,
        Some(('{', rest)) => braces_fault(rest),
        Some(_) => FaultKind::NoBraceInUnicodeEscape,
    }
}

/// Returns the fault of an escape, by the text after its backslash.
#[inline(never)]
pub fn escape_fault(text: &str) -> FaultKind {
    match split_first(text) {
        None => FaultKind::UnterminatedString,
        Some(('x', rest)) => byte_fault(rest),
        Some(('u', rest)) => unicode_fault(rest),
        Some((c, _)) => FaultKind::InvalidEscape(c),
    }
}
