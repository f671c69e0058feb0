//! The tokens of the parts of a placeholder. Each function takes a part that the parser read, adds
//! its tokens to a list, and returns the rest of the text after the part. Returns `Err` if an
//! allocation fails; the list may then have some of the tokens.

// Extracted from crates/format_tokens/src/parts.rt by tools/extract: not to be edited.
// That source has the contracts, and is proved. That this text means the same is only tested.

use crate::proved::format_tokens::kinds::{Kind, Label};
use crate::proved::rustc_parse_format::{
    Alignment, Count, DebugHex, FormatSpec, ParseMode, Position, Sign,
};
use crate::shim::alloc::AllocError;
use crate::shim::prelude::*;

/// Returns the number of characters of a text.
#[inline]
pub fn length_of(text: &str) -> usize {
    text.chars().count()
}

/// Adds a token of a text's first `bytes` bytes, and returns the rest of the text. Without bytes
/// there is no token.
#[inline(never)]
pub fn take<'a>(
    labels: &mut Vec<Label>,
    kind: Kind,
    bytes: usize,
    text: &'a str,
) -> Result<&'a str, AllocError> {
    if bytes == 0 {
        return Ok(text);
    }
    match text.parts_at(bytes) {
        Some((front, rest)) => {
            labels.push(Label {
                kind,
                width: length_of(front),
            });
            Ok(rest)
        }
        None => Ok(""),
    }
}

/// Returns the byte length of a text.
#[inline]
pub fn width_of(text: &str) -> usize {
    text.len()
}

/// Returns the first character, or `None` if the text is empty.
#[inline]
fn first(text: &str) -> Option<char> {
    text.chars().next()
}

/// Returns the text after the first character, or an empty text if there is none.
pub fn after_first(text: &str) -> &str {
    let mut rest = text.chars();
    rest.next();
    rest.as_str()
}

/// Returns whether the first character is `c`.
pub fn begins(text: &str, c: char) -> bool {
    match first(text) {
        Some(d) => d == c,
        None => false,
    }
}

/// A class of characters.
#[derive(Clone, Copy)]
pub enum Run {
    /// The decimal digits.
    Digits,
    /// White space, as in `char::is_whitespace`.
    Whitespace,
}

impl Run {
    /// Returns whether a character is of the class.
    fn passes(self, c: char) -> bool {
        match self {
            Run::Digits => c.is_ascii_digit(),
            Run::Whitespace => c.is_whitespace(),
        }
    }
}

/// Returns the byte length of the longest prefix of a text whose characters are all of the class.
#[inline(never)]
pub fn run_width(text: &str, run: Run) -> usize {
    let mut rest = text.chars();
    let mut width = 0;
    while let Some(c) = rest.next() {
        if !run.passes(c) {
            return width;
        }
        width += c.len_utf8();
    }
    width
}

/// Returns the kind of a word that is of a kind unless it is a lone `_`.
fn word_kind(kind: Kind, word: &str) -> Kind {
    if first(word) == Some('_') && first(after_first(word)).is_none() {
        Kind::Unexpected
    } else {
        kind
    }
}

/// Returns a number with one more digit, or 65536 if it is greater.
fn with_digit(number: u32, digit: char) -> u32 {
    (number * 10 + (u32::from(digit) - 48)).min(65536)
}

/// Returns whether the number that the digits at the start of a text write is above 65535.
#[inline(never)]
fn is_over(text: &str) -> bool {
    let mut number = 0;
    let mut rest = text.chars();
    while let Some(c) = rest.next() {
        if !c.is_ascii_digit() {
            return number > 65535;
        }
        number = with_digit(number, c);
    }
    number > 65535
}

/// Returns the kind of the digits at the start of a text.
#[inline]
fn integer_kind(text: &str) -> Kind {
    if is_over(text) {
        Kind::Unexpected
    } else {
        Kind::Integer
    }
}

/// Returns whether a text that begins with a name has an `r#` before it.
#[inline(never)]
fn is_raw(text: &str, name: &str) -> bool {
    let hash = after_first(text);
    match first(name) {
        Some(c) => begins(text, 'r') && begins(hash, '#') && begins(after_first(hash), c),
        None => false,
    }
}

/// Adds the tokens of a position.
#[inline(never)]
pub fn position<'a>(
    labels: &mut Vec<Label>,
    position: &Position<'_>,
    text: &'a str,
) -> Result<&'a str, AllocError> {
    match position {
        Position::ArgumentImplicitlyIs(_) => Ok(text),
        Position::ArgumentIs(_) => take(
            labels,
            integer_kind(text),
            run_width(text, Run::Digits),
            text,
        ),
        Position::ArgumentNamed(name) => {
            let prefix = if is_raw(text, name) { 2 } else { 0 };
            let word = take(labels, Kind::RawPrefix, prefix, text)?;
            let kind = word_kind(Kind::Identifier, name);
            take(labels, kind, width_of(name), word)
        }
    }
}

/// Adds the tokens of a count.
#[inline(never)]
fn count<'a>(
    labels: &mut Vec<Label>,
    count: &Count<'_>,
    text: &'a str,
) -> Result<&'a str, AllocError> {
    match count {
        Count::CountIs(_) => take(
            labels,
            integer_kind(text),
            run_width(text, Run::Digits),
            text,
        ),
        Count::CountIsParam(_) => {
            let dollar = take(
                labels,
                integer_kind(text),
                run_width(text, Run::Digits),
                text,
            )?;
            take(labels, Kind::DollarSign, 1, dollar)
        }
        Count::CountIsName(name, _) => {
            let kind = word_kind(Kind::Identifier, name);
            let dollar = take(labels, kind, width_of(name), text)?;
            take(labels, Kind::DollarSign, 1, dollar)
        }
        Count::CountIsStar(_) => take(labels, Kind::Asterisk, 1, text),
        Count::CountImplied => Ok(text),
    }
}

/// Adds the tokens of a width, with the flag `0` if it is set.
fn width<'a>(
    labels: &mut Vec<Label>,
    zero_pad: bool,
    width: &Count<'_>,
    text: &'a str,
) -> Result<&'a str, AllocError> {
    let rest_after = take(labels, Kind::Zero, usize::from(zero_pad), text)?;
    count(labels, width, rest_after)
}

/// Adds the tokens of a precision, with the dot before it.
fn precision<'a>(
    labels: &mut Vec<Label>,
    precision: &Count<'_>,
    text: &'a str,
) -> Result<&'a str, AllocError> {
    let rest_after = take(labels, Kind::Dot, usize::from(begins(text, '.')), text)?;
    count(labels, precision, rest_after)
}

/// Returns the byte length of a fill.
fn fill_width(fill: Option<char>) -> usize {
    match fill {
        Some(c) => c.len_utf8(),
        None => 0,
    }
}

/// Returns the byte length of an alignment.
fn align_width(align: Alignment) -> usize {
    match align {
        Alignment::AlignLeft | Alignment::AlignRight | Alignment::AlignCenter => 1,
        Alignment::AlignUnknown => 0,
    }
}

/// Returns the byte length of a sign.
fn sign_width(sign: Option<Sign>) -> usize {
    match sign {
        Some(Sign::Plus | Sign::Minus) => 1,
        None => 0,
    }
}

/// Returns the byte length of a type. With a flag for its hexadecimal digits it is `x?` or `X?`.
#[inline]
fn type_width(debug_hex: Option<DebugHex>, ty: &str) -> usize {
    match debug_hex {
        Some(_) => 2,
        None => width_of(ty),
    }
}

/// Adds the tokens of a format specification.
#[inline(never)]
fn format<'a>(
    labels: &mut Vec<Label>,
    format: &FormatSpec<'_>,
    text: &'a str,
) -> Result<&'a str, AllocError> {
    let align = take(labels, Kind::Fill, fill_width(format.fill), text)?;
    let sign = take(labels, Kind::Alignment, align_width(format.align), align)?;
    let alternate = take(labels, Kind::Sign, sign_width(format.sign), sign)?;
    let number = take(
        labels,
        Kind::NumberSign,
        usize::from(format.alternate),
        alternate,
    )?;
    let dot = width(labels, format.zero_pad, &format.width, number)?;
    let ty = precision(labels, &format.precision, dot)?;
    take(
        labels,
        word_kind(Kind::Type, format.ty),
        type_width(format.debug_hex, format.ty),
        ty,
    )
}

/// Adds the tokens of a specification, with the colon before it.
#[inline(never)]
pub fn specification<'a>(
    labels: &mut Vec<Label>,
    mode: ParseMode,
    spec: &FormatSpec<'_>,
    text: &'a str,
) -> Result<&'a str, AllocError> {
    if !begins(text, ':') {
        return Ok(text);
    }
    let rest_after = take(labels, Kind::Colon, 1, text)?;
    match mode {
        ParseMode::Format => format(labels, spec, rest_after),
        ParseMode::InlineAsm => {
            let kind = word_kind(Kind::Modifier, spec.ty);
            take(labels, kind, width_of(spec.ty), rest_after)
        }
        ParseMode::Diagnostic | ParseMode::DiagnosticNamed => {
            take(labels, Kind::DiagnosticText, width_of(spec.ty), rest_after)
        }
    }
}
