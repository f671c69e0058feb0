//! The first character of a text, and runs of characters of one class.

// Extracted from crates/rust_tokens/src/texts.rt by tools/extract: not to be edited.
// That source has the contracts, and is proved. That this text means the same is only tested.

use crate::proved::rust_tokens::bytes::{is_space_byte, is_start_byte, is_word_byte};

/// A class of characters.
#[derive(Clone, Copy)]
pub enum Class {
    /// White space.
    Space,
    /// Characters that continue a word: `XID_Continue`.
    Continue,
    /// `#`
    Hash,
    /// All characters but apostrophes and LF.
    Escape,
    /// `'`
    Apostrophe,
    /// ASCII digits.
    Digit,
    /// ASCII digits and `_`.
    DigitPart,
    /// Hexadecimal digits and `_`.
    HexPart,
    /// `_`
    Underscore,
    /// `/`
    Slash,
    /// `*` and `/`
    StarOrSlash,
    /// Characters that may not stand after the point of a number: a point, and the first characters
    /// of words.
    PointOrStart,
}

impl Class {
    /// Returns whether the character is in the class.
    #[inline]
    pub fn passes(self, c: char) -> bool {
        match self {
            Class::Space => is_space(c),
            Class::Continue => crate::shim::unicode_ident::is_xid_continue(c),
            Class::Hash => c == '#',
            Class::Escape => c != '\'' && c != '\n',
            Class::Apostrophe => c == '\'',
            Class::Digit => c.is_ascii_digit(),
            Class::DigitPart => c == '_' || c.is_ascii_digit(),
            Class::HexPart => c == '_' || c.is_ascii_hexdigit(),
            Class::Underscore => c == '_',
            Class::Slash => c == '/',
            Class::StarOrSlash => c == '*' || c == '/',
            Class::PointOrStart => c == '.' || is_id_start(c),
        }
    }

    /// Returns whether the byte is an ASCII character in the class.
    #[inline(always)]
    fn passes_byte(self, byte: u8) -> bool {
        match self {
            Class::Space => is_space_byte(byte),
            Class::Continue => is_word_byte(byte),
            _ => byte < 128 && self.passes(byte as char),
        }
    }
}

/// Returns whether the character is white space.
#[inline]
pub fn is_space(c: char) -> bool {
    c == '\t'
        || c == '\n'
        || c == '\u{b}'
        || c == '\u{c}'
        || c == '\r'
        || c == ' '
        || c == '\u{85}'
        || c == '\u{200e}'
        || c == '\u{200f}'
        || c == '\u{2028}'
        || c == '\u{2029}'
}

/// Returns whether the character begins a word.
#[inline]
pub fn is_id_start(c: char) -> bool {
    if c < '\u{80}' {
        return is_start_byte(c as u8);
    }
    crate::shim::unicode_ident::is_xid_start(c)
}

/// Returns whether the character is punctuation or a delimiter.
#[inline]
pub fn is_punct(c: char) -> bool {
    c == '!'
        || (c >= '#' && c <= '&')
        || (c >= '(' && c <= '/')
        || (c >= ':' && c <= '@')
        || c == '['
        || (c >= ']' && c <= '^')
        || (c >= '{' && c <= '~')
}

/// Returns whether the character stands for itself between two apostrophes.
#[inline]
pub fn is_char_content(c: char) -> bool {
    !(c == '\'' || c == '\\' || c == '\n' || c == '\r' || c == '\t')
}

/// Returns the first character and the rest, or `None` if the text is empty.
#[inline]
pub fn split_first(text: &str) -> Option<(char, &str)> {
    let mut rest = text.chars();
    match rest.next() {
        Some(first) => Some((first, rest.as_str())),
        None => None,
    }
}

/// Returns the rest after the character, or `None` if the text does not begin with it.
#[inline]
pub fn strip(text: &str, first: char) -> Option<&str> {
    let Some((c, rest)) = split_first(text) else {
        return None;
    };
    if c == first {
        Some(rest)
    } else {
        None
    }
}

/// Returns whether the text begins with a character of the class.
#[inline]
pub fn begins(text: &str, class: Class) -> bool {
    match split_first(text) {
        Some((c, _)) => class.passes(c),
        None => false,
    }
}

/// Returns the rest after the longest front of the text whose characters are in the class, which
/// need not be ASCII.
#[inline(always)]
fn after_wide_run(text: &str, class: Class) -> &str {
    let mut rest = text;
    while let Some((c, more)) = split_first(rest) {
        if !class.passes(c) {
            return rest;
        }
        rest = more;
    }
    rest
}

/// Returns the number of ASCII characters in the class with which the text begins.
#[inline(always)]
fn ascii_width(text: &str, class: Class) -> usize {
    let bytes = text.as_bytes();
    for i in 0..bytes.len() {
        if !class.passes_byte(bytes[i]) {
            return i;
        }
    }
    bytes.len()
}

/// Returns whether there is a byte at the index `at` that is not ASCII.
#[inline(always)]
fn is_wide(bytes: &[u8], at: usize) -> bool {
    at < bytes.len() && bytes[at] >= 128
}

/// Returns the rest after the longest front of the text whose characters are in the class, or
/// `None` if a character that is not ASCII comes in it or after it.
#[inline(always)]
pub fn after_ascii_run(text: &str, class: Class) -> Option<&str> {
    let width = ascii_width(text, class);
    if is_wide(text.as_bytes(), width) {
        return None;
    }
    Some(&text[width..])
}

/// Returns the rest after the longest front of the text whose characters are in the class.
#[inline(always)]
pub fn after_run(text: &str, class: Class) -> &str {
    match after_ascii_run(text, class) {
        Some(rest) => rest,
        None => after_wide_run(text, class),
    }
}

/// Returns the number of hashes at the start of the text.
#[inline]
pub fn count_hashes(text: &str) -> usize {
    let mut rest = text;
    let mut hashes: usize = 0;
    while let Some((c, more)) = split_first(rest) {
        if c != '#' {
            return hashes;
        }
        hashes += 1;
        rest = more;
    }
    hashes
}
