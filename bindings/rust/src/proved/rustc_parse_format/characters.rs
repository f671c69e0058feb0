//! Classes of characters, and prefixes and suffixes of texts. Of all code that reads pieces, only
//! this module, `source` and `cursor` work with bytes and UTF-8.

// Extracted from crates/rustc_parse_format/src/characters.rt by tools/extract: not to be edited.
// That source has the contracts, and is proved. That this text means the same is only tested.

use crate::proved::rustc_parse_format::blocks::{front_width, Stops};

/// A class of characters. The longest prefix of a text that is made of them can be read at once.
#[derive(Clone, Copy)]
pub enum Class {
    /// Characters that can continue a word: `XID_Continue`.
    Continue,
    /// White space, as in `char::is_whitespace`.
    White,
    /// All characters but braces.
    Text,
    /// All characters but braces and newlines.
    Line,
    /// All characters but backslashes.
    Unescaped,
    /// Characters that stand for themselves in an ordinary literal: all but quotes, backslashes and
    /// CRs.
    Plain,
    /// Characters that a quoted text has as they are: all but quotes of both kinds, backslashes and
    /// ASCII control characters.
    Unchanged,
}

impl Class {
    /// Returns whether `c` is in the class.
    #[inline]
    pub fn passes(self, c: char) -> bool {
        match self {
            Class::Continue => crate::shim::unicode_ident::is_xid_continue(c),
            Class::White => c.is_whitespace(),
            Class::Text => c != '{' && c != '}',
            Class::Line => c != '{' && c != '}' && c != '\n',
            Class::Unescaped => c != '\\',
            Class::Plain => c != '"' && c != '\\' && c != '\r',
            Class::Unchanged => c >= ' ' && c != '\u{7f}' && c != '"' && c != '\'' && c != '\\',
        }
    }
}

/// Returns the first character, or `None` if the text is empty.
#[inline(always)]
pub fn first(text: &str) -> Option<char> {
    text.chars().next()
}

/// Returns whether the first character is `c`, which is ASCII, so that the first byte shows it.
#[inline(always)]
pub fn begins(text: &str, c: char) -> bool {
    let bytes = text.as_bytes();
    !bytes.is_empty() && bytes[0] == c as u8
}

/// Returns whether the first character is an ASCII digit.
#[inline(always)]
pub fn begins_digit(text: &str) -> bool {
    let bytes = text.as_bytes();
    !bytes.is_empty() && bytes[0].is_ascii_digit()
}

/// Returns the first character if it is an ASCII digit, or else `None`.
#[inline(always)]
fn first_digit(text: &str) -> Option<u8> {
    let bytes = text.as_bytes();
    if bytes.is_empty() || !bytes[0].is_ascii_digit() {
        return None;
    }
    Some(bytes[0])
}

/// Returns whether the byte is an ASCII letter.
#[inline(always)]
fn is_letter(byte: u8) -> bool {
    (byte | 32).is_ascii_lowercase()
}

/// Returns whether the byte is an ASCII character that can continue a word.
#[inline(always)]
fn is_word_byte(byte: u8) -> bool {
    is_letter(byte) || byte.is_ascii_digit() || byte == b'_'
}

/// Returns whether the first character can begin a word. Most often its first byte shows it.
#[inline(always)]
pub fn begins_word(text: &str) -> bool {
    let bytes = text.as_bytes();
    if !bytes.is_empty() && bytes[0] < 128 {
        return is_letter(bytes[0]) || bytes[0] == b'_';
    }
    first(text).map_or(false, is_id_start)
}

/// Returns the text after the first character, or an empty text if there is none.
#[inline(always)]
pub fn after_first(text: &str) -> &str {
    let mut rest = text.chars();
    rest.next();
    rest.as_str()
}

/// Returns whether the first character is white space. Most often its first byte already shows that
/// it is not.
#[inline(always)]
pub fn begins_white(text: &str) -> bool {
    let bytes = text.as_bytes();
    if !bytes.is_empty() && bytes[0] > b' ' && bytes[0] < 127 {
        return false;
    }
    first(text).map_or(false, |c| c.is_whitespace())
}

/// Returns the stops that are the bytes below `low` and these four, without an upper bound.
#[inline(always)]
fn stops(low: u8, first: u8, second: u8, third: u8, fourth: u8) -> Stops {
    Stops {
        low,
        high: 255,
        first,
        second,
        third,
        fourth,
    }
}

/// Returns the number of bytes before the first one that, taken as a character, is not in the
/// class. The class has all characters outside ASCII.
#[inline(always)]
pub fn run_width(bytes: &[u8], class: Class) -> usize {
    let stops = match class {
        Class::Text => stops(0, b'{', b'}', b'}', b'}'),
        Class::Line => stops(0, b'{', b'}', b'\n', b'\n'),
        Class::Unescaped => stops(0, b'\\', b'\\', b'\\', b'\\'),
        Class::Plain => stops(0, b'"', b'\\', b'\r', b'\r'),
        Class::Unchanged => stops(b' ', b'\'', b'"', b'\\', 127),
        _ => return 0,
    };
    front_width(bytes, stops)
}

/// Returns the text after the longest prefix of characters in the class. The class has all
/// characters outside ASCII, so the bytes alone show where the prefix ends.
#[inline(always)]
pub fn after_run(text: &str, class: Class) -> &str {
    let width = run_width(text.as_bytes(), class);
    &text[width..]
}

/// Splits a text after the longest prefix of characters in the class. The class has all characters
/// outside ASCII, so the bytes alone show where the prefix ends.
#[inline(always)]
pub fn split_run(text: &str, class: Class) -> (&str, &str) {
    let width = run_width(text.as_bytes(), class);
    text.split_at(width)
}

/// Returns the text after the longest prefix of characters in the class.
#[inline(always)]
pub fn after_while(text: &str, class: Class) -> &str {
    match class {
        Class::Text => return after_run(text, Class::Text),
        Class::Line => return after_run(text, Class::Line),
        _ => {}
    }
    let mut rest = text;
    while let Some(c) = first(rest) {
        if !class.passes(c) {
            break;
        }
        rest = after_first(rest);
    }
    rest
}

/// Returns the number of bytes before the first one that is not an ASCII character that can
/// continue a word.
#[inline(always)]
fn word_width(bytes: &[u8]) -> usize {
    for i in 0..bytes.len() {
        if !is_word_byte(bytes[i]) {
            return i;
        }
    }
    bytes.len()
}

/// Returns whether there is a byte at the index `at` that is not ASCII.
#[inline(always)]
fn is_wide(bytes: &[u8], at: usize) -> bool {
    at < bytes.len() && bytes[at] >= 128
}

/// Splits a text after the word that begins it. Most often the word is ASCII.
#[inline(always)]
pub fn split_word(text: &str) -> (&str, &str) {
    let bytes = text.as_bytes();
    let width = word_width(bytes);
    if is_wide(bytes, width) {
        return split_wide_word(text);
    }
    text.split_at(width)
}

/// Splits a text after the word that begins it, which need not be ASCII.
#[inline(never)]
fn split_wide_word(text: &str) -> (&str, &str) {
    let rest = after_while(after_first(text), Class::Continue);
    (text_before(text, rest), rest)
}

/// The number that the ASCII digits at the start of a text write.
#[derive(Clone, Copy)]
pub struct LeadingNumber<'a> {
    /// The number, modulo 65536.
    pub value: u16,
    /// Whether the number exceeds 65535.
    pub is_over: bool,
    /// The text after the digits.
    pub rest: &'a str,
}

/// Returns the number that the ASCII digits at the start of the text write: 0 if there are none.
#[inline(always)]
pub fn leading_number(text: &str) -> LeadingNumber<'_> {
    let mut value = 0;
    let mut is_over = false;
    let mut rest = text;
    while let Some(digit) = first_digit(rest) {
        let next_number = with_digit(value, digit);
        value = next_number.0;
        is_over |= next_number.1;
        rest = after_first(rest);
    }
    LeadingNumber {
        value,
        is_over,
        rest,
    }
}

/// Returns the part of `text` before its suffix `rest_after`.
#[inline(always)]
pub fn text_before<'a>(text: &'a str, rest_after: &str) -> &'a str {
    &text[..text.len() - rest_after.len()]
}

/// Returns whether `c` can begin a word: `_` or `XID_Start`.
#[inline]
pub fn is_id_start(c: char) -> bool {
    c == '_' || crate::shim::unicode_ident::is_xid_start(c)
}

/// Returns whether the text is the word `_`.
#[inline]
pub fn is_underscore(text: &str) -> bool {
    first(text) == Some('_') && first(after_first(text)).is_none()
}

/// Returns the value of `number` with one more decimal digit, modulo 65536, and whether that value
/// exceeds 65535.
#[inline]
fn with_digit(number: u16, digit: u8) -> (u16, bool) {
    let value = u32::from(number) * 10 + (u32::from(digit) - 48);
    ((value % 65536) as u16, value > 65535)
}
