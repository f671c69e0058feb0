//! Numbers, from after their first digit on.

// Extracted from crates/rust_tokens/src/numbers.rt by tools/extract: not to be edited.
// That source has the contracts, and is proved. That this text means the same is only tested.

use crate::proved::rust_tokens::bodies::{ended_token, Body};
use crate::proved::rust_tokens::kinds::Kind;
use crate::proved::rust_tokens::texts::{after_run, begins, split_first, Class};

/// Returns the rest after a sign, or the text if it begins with none.
#[inline]
fn after_sign(text: &str) -> &str {
    match split_first(text) {
        Some((c, rest)) => {
            if c == '+' || c == '-' {
                rest
            } else {
                text
            }
        }
        None => text,
    }
}

/// Returns the rest after digits, or `None` if the text begins with none.
#[inline]
fn after_digits(text: &str) -> Option<&str> {
    if begins(text, Class::Digit) {
        Some(after_run(text, Class::DigitPart))
    } else {
        None
    }
}

/// Returns the rest after an exponent, or `None` if the text begins with none.
#[inline]
fn after_exponent(text: &str) -> Option<&str> {
    let Some((c, rest)) = split_first(text) else {
        return None;
    };
    if c == 'e' || c == 'E' {
        return after_digits(after_run(after_sign(rest), Class::Underscore));
    }
    None
}

/// Returns the rest after a point that belongs to the number before it, or `None`.
#[inline]
fn after_point(text: &str) -> Option<&str> {
    let Some((c, rest)) = split_first(text) else {
        return None;
    };
    if c == '.' && !begins(rest, Class::PointOrStart) {
        Some(rest)
    } else {
        None
    }
}

/// Returns a float with an exponent after which `exponent` is left, or else a number of this kind
/// after which `rest` is left.
#[inline]
fn exponent_or<'a>(kind: Kind, rest: &'a str, exponent: Option<&'a str>) -> Body<'a> {
    match exponent {
        Some(rest) => ended_token(Kind::Float, rest),
        None => ended_token(kind, rest),
    }
}

/// Returns a number, from after its point on.
#[inline]
fn after_fraction(text: &str) -> Body<'_> {
    if begins(text, Class::Digit) {
        let rest = after_run(text, Class::DigitPart);
        return exponent_or(Kind::Float, rest, after_exponent(rest));
    }
    ended_token(Kind::Float, text)
}

/// Returns a decimal number, from after its first digit on.
#[inline]
fn first_decimal(text: &str) -> Body<'_> {
    let rest = after_run(text, Class::DigitPart);
    match after_point(rest) {
        Some(fraction) => after_fraction(fraction),
        None => exponent_or(Kind::DecimalInt, rest, after_exponent(rest)),
    }
}

/// Returns a number that begins with `0`, from after that on.
#[inline]
fn first_zero(text: &str) -> Body<'_> {
    let Some((c, rest)) = split_first(text) else {
        return first_decimal(text);
    };
    match c {
        'b' => {
            let rest = after_run(rest, Class::DigitPart);
            ended_token(Kind::BinaryInt, rest)
        }
        'o' => {
            let rest = after_run(rest, Class::DigitPart);
            ended_token(Kind::OctalInt, rest)
        }
        'x' => {
            let rest = after_run(rest, Class::HexPart);
            ended_token(Kind::HexadecimalInt, rest)
        }
        _ => first_decimal(text),
    }
}

/// Returns the number that begins with the digit `c` before the text.
#[inline]
pub fn first_number(c: char, text: &str) -> Body<'_> {
    if c == '0' {
        first_zero(text)
    } else {
        first_decimal(text)
    }
}
