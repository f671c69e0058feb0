//! The messages of faults.

// Extracted from crates/literal_faults/src/words.rt by tools/extract: not to be edited.
// That source has the contracts, and is proved. That this text means the same is only tested.

use crate::proved::literal_faults::fault::FaultKind;
use crate::proved::rust_tokens::Kind;
use crate::shim::alloc::AllocError;
use crate::shim::prelude::*;

/// Returns the title where a token of this kind stands in place of a string literal.
#[inline(never)]
fn found_title(kind: Kind) -> &'static str {
    match kind {
        Kind::ByteStr | Kind::RawByteStr => {
            "expected a string literal, found a byte string literal"
        }
        Kind::CStr | Kind::RawCStr => "expected a string literal, found a C string literal",
        Kind::Byte => "expected a string literal, found a byte literal",
        Kind::Char | Kind::Lifetime | Kind::RawLifetime => {
            "expected a string literal, which has double quotes"
        }
        _ => "expected a string literal",
    }
}

/// Returns the title of a fault: its message without the character that it may name.
#[inline(never)]
fn title(kind: FaultKind) -> &'static str {
    match kind {
        FaultKind::NoLiteral => "expected a string literal, found nothing",
        FaultKind::NotString(token) => found_title(token),
        FaultKind::UnterminatedString => "unterminated double quote string",
        FaultKind::UnterminatedRawString => "unterminated raw string",
        FaultKind::InvalidEscape(_) => "unknown character escape",
        FaultKind::TooShortHexEscape => "numeric character escape is too short",
        FaultKind::InvalidCharInHexEscape(_) => "invalid character in numeric character escape",
        FaultKind::OutOfRangeHexEscape => "out of range hex escape",
        FaultKind::NoBraceInUnicodeEscape => "incorrect unicode escape sequence",
        FaultKind::InvalidCharInUnicodeEscape(_) => "invalid character in unicode escape",
        FaultKind::EmptyUnicodeEscape => "empty unicode escape",
        FaultKind::UnclosedUnicodeEscape => "unterminated unicode escape",
        FaultKind::LeadingUnderscoreUnicodeEscape => "invalid start of unicode escape: `_`",
        FaultKind::OverlongUnicodeEscape => "overlong unicode escape",
        FaultKind::LoneSurrogateUnicodeEscape => {
            "invalid unicode character escape, which must not be a surrogate"
        }
        FaultKind::OutOfRangeUnicodeEscape => {
            "invalid unicode character escape, which must be at most 10FFFF"
        }
        FaultKind::BareCarriageReturn => "bare CR not allowed in string, use `\\r` instead",
        FaultKind::Suffix => "suffixes on string literals are invalid",
        FaultKind::TrailingText => "unexpected text after the string literal",
    }
}

/// Returns the character that the message of a fault names.
fn named_character(kind: FaultKind) -> Option<char> {
    match kind {
        FaultKind::InvalidEscape(c)
        | FaultKind::InvalidCharInHexEscape(c)
        | FaultKind::InvalidCharInUnicodeEscape(c) => Some(c),
        _ => None,
    }
}

/// Appends a character: printable ASCII as it is, and any other as an escape.
#[inline(never)]
fn put_shown_character(out: &mut String, c: char) -> Result<(), AllocError> {
    match c {
        ' '..='~' => out.push(c),
        '\t' => out.push_str("\\t"),
        '\r' => out.push_str("\\r"),
        '\n' => out.push_str("\\n"),
        _ => {
            let code = u32::from(c);
            let escape = ::alloc::format!("\\u{{{code:x}}}");
            out.push_str(&escape);
        }
    }
    Ok(())
}

impl FaultKind {
    /// Appends the message to a text: one line without its end, in ASCII and with no control
    /// character.
    #[inline(never)]
    pub(crate) fn put_message(&self, out: &mut String) -> Result<(), AllocError> {
        out.push_str(title(*self));
        if let Some(c) = named_character(*self) {
            out.push_str(": `");
            put_shown_character(out, c)?;
            out.push_str("`");
        }
        Ok(())
    }
}
