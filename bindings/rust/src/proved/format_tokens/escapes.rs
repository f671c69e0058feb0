//! Tokens cut at the escapes of an ordinary literal.

// Extracted from crates/format_tokens/src/escapes.rt by tools/extract: not to be edited.
// That source has the contracts, and is proved. That this text means the same is only tested.

use crate::proved::format_tokens::kinds::{Kind, Token};
use crate::proved::format_tokens::parts::{after_first, begins, width_of};
use crate::proved::rustc_parse_format::literal::{split_first_unit, FirstUnit};
use crate::shim::alloc::AllocError;
use crate::shim::prelude::*;
use core::ops::Range;

/// Returns the escape at the start of a text, or `None` if the text begins with no escape.
#[inline]
fn escape_at(text: &str) -> Option<FirstUnit<'_>> {
    if begins(text, '\\') {
        split_first_unit(text)
    } else {
        None
    }
}

/// Returns whether a token is text without braces.
#[inline(never)]
fn is_text(kind: Kind) -> bool {
    match kind {
        Kind::Text => true,
        Kind::EscapedBrace
        | Kind::OpenBrace
        | Kind::CloseBrace
        | Kind::Integer
        | Kind::Identifier
        | Kind::RawPrefix
        | Kind::Whitespace
        | Kind::Colon
        | Kind::Fill
        | Kind::Alignment
        | Kind::Sign
        | Kind::NumberSign
        | Kind::Zero
        | Kind::DollarSign
        | Kind::Dot
        | Kind::Asterisk
        | Kind::Type
        | Kind::Modifier
        | Kind::DiagnosticText
        | Kind::Unexpected
        | Kind::Quote
        | Kind::EscapeSequence => false,
    }
}

/// Returns whether an escape that stands for this character, or for nothing, is a token of its own
/// inside a token of this kind.
#[inline]
fn is_apart(kind: Kind, character: Option<char>) -> bool {
    match character {
        Some(_) => is_text(kind),
        None => true,
    }
}

/// Adds the token of a byte range if that is not empty.
fn put_run(tokens: &mut Vec<Token>, kind: Kind, from: usize, to: usize) -> Result<(), AllocError> {
    if from < to {
        tokens.push(Token {
            kind,
            span: from..to,
        });
    }
    Ok(())
}

/// Adds an escape of a byte range.
fn put_escape(tokens: &mut Vec<Token>, span: Range<usize>) -> Result<(), AllocError> {
    tokens.push(Token {
        kind: Kind::EscapeSequence,
        span,
    });
    Ok(())
}

/// Adds the parts of a token with these source characters.
#[inline(never)]
fn put_parts(tokens: &mut Vec<Token>, token: &Token, text: &str) -> Result<(), AllocError> {
    let end = token.span.end;
    let mut from = token.span.start;
    let mut rest = text;
    while !rest.is_empty() {
        match escape_at(rest) {
            None => rest = after_first(rest),
            Some(FirstUnit {
                character,
                rest: others,
            }) => {
                if is_apart(token.kind, character) {
                    let at = end.saturating_sub(width_of(rest));
                    let to = end.saturating_sub(width_of(others));
                    put_run(tokens, token.kind, from, at)?;
                    put_escape(tokens, at..to)?;
                    from = to;
                }
                rest = others;
            }
        }
    }
    put_run(tokens, token.kind, from, end)?;
    Ok(())
}

/// Returns the first characters of a text, as many as end within `width` bytes, and the rest after
/// them.
#[inline]
fn split_within(text: &str, width: usize) -> (&str, &str) {
    text.split_at(text.boundary_at_most(width))
}

/// Returns whether a text has a backslash.
fn has_backslash(text: &str) -> bool {
    for byte in text.as_bytes() {
        if *byte == b'\\' {
            return true;
        }
    }
    false
}

/// Returns the tokens of an ordinary literal cut at its escapes.
#[inline(never)]
fn cut(literal: &str, tokens: &[Token]) -> Result<Vec<Token>, AllocError> {
    let mut list = Vec::with_capacity(tokens.len());
    let mut rest = literal;
    for token in tokens {
        let width = token.span.end.saturating_sub(token.span.start);
        let (text, others) = split_within(rest, width);
        put_parts(&mut list, token, text)?;
        rest = others;
    }
    Ok(list)
}

/// Returns the tokens of an ordinary literal, which cover it, cut at its escapes.
pub fn cut_escapes(literal: &str, tokens: Vec<Token>) -> Result<Vec<Token>, AllocError> {
    if has_backslash(literal) {
        return cut(literal, tokens.as_slice());
    }
    Ok(tokens)
}
