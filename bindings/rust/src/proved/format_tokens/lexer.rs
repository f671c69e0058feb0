//! The tokens of an input and their places.

// Extracted from crates/format_tokens/src/lexer.rt by tools/extract: not to be edited.
// That source has the contracts, and is proved. That this text means the same is only tested.

use crate::proved::format_tokens::escapes::cut_escapes;
use crate::proved::format_tokens::kinds::{Kind, Label, Token};
use crate::proved::format_tokens::parts::{length_of, width_of};
use crate::proved::format_tokens::places::{ordinary_starts, place, plain_starts};
use crate::proved::format_tokens::walk::labels;
use crate::proved::rustc_parse_format::literal::is_source_literal;
use crate::proved::rustc_parse_format::ParseMode;
use crate::shim::alloc::AllocError;
use crate::shim::prelude::*;

/// Returns whether each argument has to be a name and nothing else.
#[inline]
fn wants_names(mode: ParseMode) -> bool {
    matches!(mode, ParseMode::DiagnosticNamed)
}

/// Returns the snippet if it is the source literal of the input.
fn source_of<'a>(
    input: &str,
    style: Option<usize>,
    snippet: Option<&'a str>,
    appended_newline: bool,
) -> Option<&'a str> {
    match snippet {
        None => None,
        Some(literal) => {
            if is_source_literal(input, style, literal, appended_newline) {
                Some(literal)
            } else {
                None
            }
        }
    }
}

/// Returns the byte offsets where the characters of an input start in its source literal, and then
/// the end of the text.
#[inline(never)]
fn literal_starts(
    input: &str,
    style: Option<usize>,
    literal: &str,
    appended_newline: bool,
) -> Result<Vec<usize>, AllocError> {
    match style {
        None => ordinary_starts(literal, appended_newline),
        Some(hashes) => {
            let end = width_of(literal).saturating_sub(hashes + 1);
            plain_starts(hashes + 2, input, end)
        }
    }
}

/// Returns the tokens of an input with their byte ranges, where escapes are in the tokens of the
/// characters that they stand for, and the opening and the closing of `literal`, its source literal
/// if it has one.
#[inline(never)]
fn place_whole(
    input: &str,
    style: Option<usize>,
    literal: &str,
    appended_newline: bool,
    needs_names: bool,
    labels: &[Label],
) -> Result<Vec<Token>, AllocError> {
    let count = length_of(input).saturating_sub(usize::from(appended_newline));
    let offsets = literal_starts(input, style, literal, appended_newline)?;
    let starts = offsets.as_slice();
    let mut tokens = Vec::with_capacity(labels.len().saturating_add(2));
    tokens.push(Token {
        kind: Kind::Quote,
        span: 0..starts[0],
    });
    place(&mut tokens, needs_names, labels, starts, count)?;
    tokens.push(Token {
        kind: Kind::Quote,
        span: starts[starts.len() - 1]..width_of(literal),
    });
    Ok(tokens)
}

/// Returns the tokens of an input with their byte ranges. `labels` are those that `label` adds; the
/// other arguments are those of `tokens`.
#[inline(never)]
pub fn place_labels(
    input: &str,
    style: Option<usize>,
    snippet: Option<&str>,
    appended_newline: bool,
    mode: ParseMode,
    labels: &[Label],
) -> Result<Vec<Token>, AllocError> {
    let needs_names = wants_names(mode);
    let Some(literal) = source_of(input, style, snippet, appended_newline) else {
        let count = length_of(input).saturating_sub(usize::from(appended_newline));
        let starts = plain_starts(0, input, width_of(input))?;
        let mut tokens = Vec::with_capacity(labels.len());
        place(&mut tokens, needs_names, labels, starts.as_slice(), count)?;
        return Ok(tokens);
    };
    let tokens = place_whole(input, style, literal, appended_newline, needs_names, labels)?;
    match style {
        Some(_) => Ok(tokens),
        None => cut_escapes(literal, tokens),
    }
}

/// Returns the tokens of an input, faulty or not, with their byte ranges in its source literal, or
/// in the input if there is none. Nothing is left out but an appended newline.
///
/// The arguments are those of `Parser::new`: `style` is `None` for an ordinary literal and
/// `Some(n)` for a raw one with n hashes, `snippet` is the literal as it is in the source, and
/// `appended_newline` is whether the last character of the input is a newline that the source does
/// not have. The number of hashes, the byte length of the input and 2 must add up to less than
/// 2^64.
///
/// If the snippet is the source literal of the input, the byte ranges are those of the snippet, and
/// the first and the last token are the opening and the closing of the literal. Otherwise the byte
/// ranges are those of the input, from 0 on.
///
/// The kinds and the characters of the tokens do not depend on `style` and `snippet`, but for the
/// escapes of an ordinary source literal: each escape in text and each continued line is a token of
/// its own, `EscapeSequence`, and cuts the token that it is in. An escape that stands for a brace,
/// or for another character of a placeholder, stays in the token of that character.
///
#[inline(never)]
pub fn tokens(
    input: &str,
    style: Option<usize>,
    snippet: Option<String>,
    appended_newline: bool,
    mode: ParseMode,
) -> Result<Vec<Token>, AllocError> {
    let text = match &snippet {
        None => None,
        Some(literal) => Some(literal.as_str()),
    };
    let labels = labels(input, mode)?;
    place_labels(input, style, text, appended_newline, mode, &labels)
}
