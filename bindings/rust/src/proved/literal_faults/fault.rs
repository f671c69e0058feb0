//! The reason why a text is no string literal, and its place.

// Extracted from crates/literal_faults/src/fault.rt by tools/extract: not to be edited.
// That source has the contracts, and is proved. That this text means the same is only tested.

use crate::proved::literal_faults::escapes::escape_fault;
use crate::proved::literal_faults::stops::after_units;
use crate::proved::piece_listing::literal::raw_text;
use crate::proved::rust_tokens::{split_first, split_first_token, Kind};

/// The kind of a fault of a text that is to be a string literal. The names of faults of escapes are
/// those of rustc's `EscapeError`.
#[derive(Copy, Clone, Debug, Eq, PartialEq)]
pub enum FaultKind {
    /// The text is empty.
    NoLiteral,
    /// The text begins with a token that is no string literal.
    NotString(Kind),
    /// The text ends before a closing quote.
    UnterminatedString,
    /// The text ends before a closing quote with as many hashes as at the start.
    UnterminatedRawString,
    /// A backslash before a character with which no escape begins.
    InvalidEscape(char),
    /// `\x` with fewer than two digits.
    TooShortHexEscape,
    /// A character after `\x` that is no hexadecimal digit.
    InvalidCharInHexEscape(char),
    /// `\x` with a number over 7F.
    OutOfRangeHexEscape,
    /// `\u` without a brace after it.
    NoBraceInUnicodeEscape,
    /// A character in the braces of `\u{..}` that is neither a hexadecimal digit nor `_`.
    InvalidCharInUnicodeEscape(char),
    /// `\u{}`
    EmptyUnicodeEscape,
    /// `\u{..` without a closing brace.
    UnclosedUnicodeEscape,
    /// `\u{_..`
    LeadingUnderscoreUnicodeEscape,
    /// `\u{..}` with more than six digits.
    OverlongUnicodeEscape,
    /// `\u{..}` with the number of a surrogate, D800 to DFFF.
    LoneSurrogateUnicodeEscape,
    /// `\u{..}` with a number over 10FFFF.
    OutOfRangeUnicodeEscape,
    /// A CR without a backslash before it.
    BareCarriageReturn,
    /// A word directly after the closing quote.
    Suffix,
    /// Anything else after the literal.
    TrailingText,
}

/// The reason why a text is no string literal.
#[derive(Copy, Clone, Debug, Eq, PartialEq)]
pub struct LiteralFault {
    /// The kind of the fault.
    pub kind: FaultKind,
    /// The byte offset up to which the text can be read as a string literal: that of the backslash
    /// of an escape that is wrong, and the end of the text if the literal lacks its closing quote.
    pub offset: usize,
}

/// Returns whether the character begins a word.
#[inline]
fn is_id_start(c: char) -> bool {
    c == '_' || crate::shim::unicode_ident::is_xid_start(c)
}

/// Returns the fault of a literal that is not alone.
#[inline]
fn trailing_fault(is_suffix: bool) -> FaultKind {
    if is_suffix {
        FaultKind::Suffix
    } else {
        FaultKind::TrailingText
    }
}

/// Returns the fault at a place of an ordinary literal where no character and no escape comes next,
/// or `None` if only the closing quote is left.
#[inline(never)]
fn stop_fault(text: &str) -> Option<FaultKind> {
    match split_first(text) {
        None => Some(FaultKind::UnterminatedString),
        Some(('"', rest)) => {
            let (c, _) = split_first(rest)?;
            Some(trailing_fault(is_id_start(c)))
        }
        Some(('\\', rest)) => Some(escape_fault(rest)),
        Some(_) => Some(FaultKind::BareCarriageReturn),
    }
}

/// Returns the rest of a text after a closing quote, or the text if it does not begin with one.
fn after_quote(text: &str) -> &str {
    match split_first(text) {
        Some(('"', rest)) => rest,
        _ => text,
    }
}

/// Returns the fault of a text that does not begin with a quote, or `None` if the text is empty.
#[inline(never)]
fn token_fault(text: &str) -> Option<LiteralFault> {
    let (token, _) = split_first_token(text)?;
    if token.kind != Kind::RawStr {
        return Some(LiteralFault {
            kind: FaultKind::NotString(token.kind),
            offset: 0,
        });
    }
    Some(LiteralFault {
        kind: if token.is_ended {
            trailing_fault(token.suffix_start < token.span.end)
        } else {
            FaultKind::UnterminatedRawString
        },
        offset: token.suffix_start,
    })
}

/// Returns the fault of a text by the text after the quote at its start, or `None` if the text is
/// an ordinary string literal.
#[inline(never)]
fn string_fault(text: &str, content: &str) -> Option<LiteralFault> {
    let stop = after_units(content);
    let kind = stop_fault(stop)?;
    Some(LiteralFault {
        kind,
        offset: text.len() - after_quote(stop).len(),
    })
}

/// Returns the reason why a text is no string literal, with its place, or `None` if the text is
/// one.
///
/// The fault is at the first place at which the text can no longer be read as a string literal. The
/// rules are those of the Rust Reference, except that a raw literal may hold any character, and its
/// own closing sequence too. White space after a literal is a fault. Does not allocate.
#[inline(never)]
pub fn literal_fault(text: &str) -> Option<LiteralFault> {
    if raw_text(text).is_some() {
        return None;
    }
    match split_first(text) {
        None => Some(LiteralFault {
            kind: FaultKind::NoLiteral,
            offset: 0,
        }),
        Some(('"', content)) => string_fault(text, content),
        Some(_) => token_fault(text),
    }
}
