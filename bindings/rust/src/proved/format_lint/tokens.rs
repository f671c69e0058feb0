//! The tokens of a source as they are shown. Each function whose name begins with `put_` appends to
//! `out`.

// Extracted from crates/format_lint/src/tokens.rt by tools/extract: not to be edited.
// That source has the contracts, and is proved. That this text means the same is only tested.

use crate::proved::drawn_lines::{is_drawn_as_is, is_non_ascii_drawn_as_is, put_glyphs};
use crate::proved::format_tokens::{Kind, Token};
use crate::proved::piece_listing::{put_quoted, put_span};
use crate::shim::alloc::AllocError;
use crate::shim::prelude::*;

/// Returns the name of a kind in a list of tokens.
#[inline(never)]
fn kind_name(kind: Kind) -> &'static str {
    match kind {
        Kind::Text => "text",
        Kind::EscapedBrace => "escape",
        Kind::OpenBrace => "open",
        Kind::CloseBrace => "close",
        Kind::Integer => "integer",
        Kind::Identifier => "identifier",
        Kind::RawPrefix => "raw-prefix",
        Kind::Whitespace => "whitespace",
        Kind::Colon => "colon",
        Kind::Fill => "fill",
        Kind::Alignment => "align",
        Kind::Sign => "sign",
        Kind::NumberSign => "number-sign",
        Kind::Zero => "zero",
        Kind::DollarSign => "dollar-sign",
        Kind::Dot => "dot",
        Kind::Asterisk => "asterisk",
        Kind::Type => "type",
        Kind::Modifier => "modifier",
        Kind::DiagnosticText => "diagnostic-text",
        Kind::Unexpected => "unexpected",
        Kind::Quote => "quote",
        Kind::EscapeSequence => "escape-sequence",
    }
}

/// Returns the escape of SGR that sets the colour of a kind on a terminal, or `None` if the kind is
/// only text.
#[inline(never)]
fn colour_escape(kind: Kind) -> Option<&'static str> {
    match kind {
        Kind::Text | Kind::Whitespace | Kind::DiagnosticText | Kind::Quote => None,
        Kind::EscapedBrace => Some("\u{1b}[34m"),
        Kind::OpenBrace | Kind::CloseBrace | Kind::Colon | Kind::DollarSign | Kind::Dot => {
            Some("\u{1b}[35m")
        }
        Kind::Integer | Kind::Identifier | Kind::RawPrefix | Kind::Asterisk => Some("\u{1b}[36m"),
        Kind::Fill | Kind::Alignment | Kind::Sign | Kind::NumberSign | Kind::Zero => {
            Some("\u{1b}[33m")
        }
        Kind::Type | Kind::Modifier => Some("\u{1b}[32m"),
        Kind::Unexpected => Some("\u{1b}[31m"),
        Kind::EscapeSequence => Some("\u{1b}[94m"),
    }
}

/// Adds a text as it is drawn. If `is_plain`, each of its characters is drawn as it is.
fn put_drawn_text(out: &mut String, is_plain: bool, text: &str) -> Result<(), AllocError> {
    if is_plain {
        return Ok(out.push_str(text));
    }
    put_glyphs(out, text, 0)?;
    Ok(())
}

/// Adds a text in the colour of a kind, if that has one. If `is_plain`, each of its characters is
/// drawn as it is.
#[inline(never)]
fn put_coloured_text(
    out: &mut String,
    is_plain: bool,
    kind: Kind,
    text: &str,
) -> Result<(), AllocError> {
    match colour_escape(kind) {
        Some(escape) => {
            out.push_str(escape);
            put_drawn_text(out, is_plain, text)?;
            out.push_str("\u{1b}[0m");
        }
        None => put_drawn_text(out, is_plain, text)?,
    }
    Ok(())
}

/// Adds a text in quotes as that is drawn. If `is_plain`, each of its characters beyond ASCII is
/// drawn as it is.
#[inline(never)]
fn put_quoted_text(out: &mut String, is_plain: bool, text: &str) -> Result<(), AllocError> {
    if is_plain {
        return put_quoted(out, text);
    }
    let mut quoted_string = String::new();
    put_quoted(&mut quoted_string, text)?;
    put_glyphs(out, quoted_string.as_str(), 0)?;
    Ok(())
}

/// Adds a line with the kind, the byte range and the text of a token. If `is_plain`, each character
/// of that beyond ASCII is drawn as it is.
#[inline(never)]
fn put_line(out: &mut String, is_plain: bool, token: &Token, text: &str) -> Result<(), AllocError> {
    out.push_str(kind_name(token.kind));
    put_span(out, ' ', &token.span)?;
    out.try_push(' ')?;
    put_quoted_text(out, is_plain, text)?;
    out.try_push('\n')?;
    Ok(())
}

/// Adds a token with this text. If `is_plain`, the text is shown as it is, or quoted as it is.
fn put_token(
    out: &mut String,
    colours: bool,
    is_plain: bool,
    token: &Token,
    text: &str,
) -> Result<(), AllocError> {
    if colours {
        put_coloured_text(out, is_plain, token.kind, text)?;
    } else {
        put_line(out, is_plain, token, text)?;
    }
    Ok(())
}

/// Returns the first characters of a text, as many as end within `width` bytes, and the rest after
/// them.
#[inline]
fn split_within(text: &str, width: usize) -> (&str, &str) {
    text.split_at(text.boundary_at_most(width))
}

/// Returns `true` only if each part of a text is shown as it is, or quoted as it is.
#[inline]
fn stays_as_is(colours: bool, text: &str) -> bool {
    if colours {
        is_drawn_as_is(text)
    } else {
        is_non_ascii_drawn_as_is(text)
    }
}

/// About how many bytes a token in a colour takes besides its text: two escapes.
const ESCAPES_WIDTH: usize = 9;

/// About how many bytes the line of a token takes besides its text: a kind, a range and quotes.
const LINE_WIDTH: usize = 24;

/// Adds the tokens of a text, in colours or each in a line.
#[inline(never)]
pub fn put_tokens(
    out: &mut String,
    colours: bool,
    text: &str,
    tokens: &[Token],
) -> Result<(), AllocError> {
    let token_width = if colours { ESCAPES_WIDTH } else { LINE_WIDTH };
    // most often enough for all of them, so that what was written is not moved again and again
    out.reserve(
        text.len()
            .saturating_add(tokens.len().saturating_mul(token_width)),
    );
    let is_plain = stays_as_is(colours, text);
    let mut rest = text;
    for token in tokens {
        let width = token.span.end.saturating_sub(token.span.start);
        let (text, rest_after) = split_within(rest, width);
        put_token(out, colours, is_plain, token, text)?;
        rest = rest_after;
    }
    Ok(())
}
