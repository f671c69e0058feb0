//! The gate. A function whose name begins with `put_` appends to `out`.

// Extracted from crates/shown_text/src/gate.rt by tools/extract: not to be edited.
// That source has the contracts, and is proved. That this text means the same is only tested.

use crate::proved::drawn_lines::{glyph, split_first};
use crate::proved::rustc_parse_format::{front_width, Stops};
use crate::shim::alloc::AllocError;
use crate::shim::prelude::*;

/// A kind of text that is shown. In each, a terminal obeys no character, and none ends the line.
#[derive(Clone, Copy, Debug, Eq, PartialEq)]
pub enum Kind {
    /// A line for a person, or a part of one.
    Line,
    /// The value of a property of a workflow command of GitHub.
    Property,
    /// The message of a workflow command of GitHub.
    Message,
    /// A string of JSON, without its quotes.
    Json,
}

/// The stops of a text of which a line for a person has all as it is.
const LINE: Stops = Stops {
    low: b' ',
    high: b'~',
    first: 127,
    second: 127,
    third: 127,
    fourth: 127,
};

/// The stops of a text of which a property of a workflow command has all as it is.
const PROPERTY: Stops = Stops {
    first: b'%',
    second: b':',
    third: b',',
    ..LINE
};

/// The stops of a text of which the message of a workflow command has all as it is.
const MESSAGE: Stops = Stops {
    first: b'%',
    ..LINE
};

/// The stops of a text of which a string of JSON has all as it is.
const JSON: Stops = Stops {
    first: b'"',
    second: b'\\',
    ..LINE
};

/// Returns the length of a prefix of a text that stands for itself.
fn plain_width(kind: Kind, text: &str) -> usize {
    let bytes = text.as_bytes();
    match kind {
        Kind::Line => front_width(bytes, LINE),
        Kind::Property => front_width(bytes, PROPERTY),
        Kind::Message => front_width(bytes, MESSAGE),
        Kind::Json => front_width(bytes, JSON),
    }
}

/// Returns a prefix of a text that stands for itself, and what is after it.
#[inline]
fn split_plain(kind: Kind, text: &str) -> (&str, &str) {
    text.split_at(plain_width(kind, text))
}

/// Returns the character that a line has for a character.
fn line_char(c: char) -> char {
    match c {
        '\n' => '\u{240a}',
        '\u{2028}' | '\u{2029}' => '\u{fffd}',
        _ => glyph(c),
    }
}

/// Adds a character as a workflow command has it: in a property, or in its message.
fn put_command_char(out: &mut String, is_property: bool, c: char) -> Result<(), AllocError> {
    match c {
        '%' => out.push_str("%25"),
        '\r' => out.push_str("%0D"),
        '\n' => out.push_str("%0A"),
        ':' if is_property => out.push_str("%3A"),
        ',' if is_property => out.push_str("%2C"),
        _ => out.push(line_char(c)),
    }
    Ok(())
}

/// Returns the letter after the backslash in the short escape of a character in a string of JSON,
/// or U+0000 if it has none.
fn escape_letter(c: char) -> char {
    match c {
        '"' | '\\' => c,
        '\u{8}' => 'b',
        '\u{c}' => 'f',
        '\n' => 'n',
        '\r' => 'r',
        '\t' => 't',
        _ => '\0',
    }
}

/// Returns the last digit of a number in base 16.
fn last_digit(number: u32) -> char {
    let digit = (number % 16) as u8;
    if digit < 10 {
        (48 + digit) as char
    } else {
        (87 + digit) as char
    }
}

/// Adds the long escape of a character in a string of JSON.
fn put_code(out: &mut String, c: char) -> Result<(), AllocError> {
    let code = c as u32;
    out.push_str("\\u");
    out.push(last_digit(code / 4096));
    out.push(last_digit(code / 256));
    out.push(last_digit(code / 16));
    out.push(last_digit(code));
    Ok(())
}

/// Adds a character as a string of JSON has it.
fn put_json_char(out: &mut String, c: char) -> Result<(), AllocError> {
    let letter = escape_letter(c);
    if letter != '\0' {
        out.push('\\');
        out.push(letter);
    } else if line_char(c) != c {
        put_code(out, c)?;
    } else {
        out.push(c);
    }
    Ok(())
}

/// Adds a character as a kind of text has it.
fn put_char(out: &mut String, kind: Kind, c: char) -> Result<(), AllocError> {
    match kind {
        Kind::Line => Ok(out.push(line_char(c))),
        Kind::Property => Ok(put_command_char(out, true, c)?),
        Kind::Message => Ok(put_command_char(out, false, c)?),
        Kind::Json => Ok(put_json_char(out, c)?),
    }
}

/// Appends a text as this kind has it.
pub fn put_shown(out: &mut String, kind: Kind, text: &str) -> Result<(), AllocError> {
    let (front, mut rest) = split_plain(kind, text);
    out.push_str(front);
    while let Some((c, tail)) = split_first(rest) {
        put_char(out, kind, c)?;
        let (front, rest_after) = split_plain(kind, tail);
        out.push_str(front);
        rest = rest_after;
    }
    Ok(())
}
