//! The tokens of a whole text, by the calls of the parser.

// Extracted from crates/format_tokens/src/walk.rt by tools/extract: not to be edited.
// That source has the contracts, and is proved. That this text means the same is only tested.

use crate::proved::format_tokens::kinds::{Kind, Label};
use crate::proved::format_tokens::parts::{
    begins, position, run_width, specification, take, width_of, Run,
};
use crate::proved::rustc_parse_format::{Argument, NextPiece, ParseMode, PieceKind};
use crate::shim::alloc::AllocError;
use crate::shim::parser::Parser;
use crate::shim::prelude::*;

/// Returns the text before the closing brace at its end, or `None` if it does not end with one.
#[inline]
fn before_brace(text: &str) -> Option<&str> {
    text.strip_suffix('}')
}

/// Returns whether the first `bytes` bytes of a text end with a closing brace.
fn is_closed(bytes: usize, text: &str) -> bool {
    match text.parts_at(bytes) {
        Some((front, _)) => before_brace(front).is_some(),
        None => false,
    }
}

/// Adds the tokens of the first `bytes` bytes of a text, which the call reads in place of a closing
/// brace, and returns the rest of the text.
#[inline(never)]
fn skip<'a>(labels: &mut Vec<Label>, bytes: usize, text: &'a str) -> Result<&'a str, AllocError> {
    let brace = usize::from(is_closed(bytes, text));
    let close = take(labels, Kind::Unexpected, bytes.saturating_sub(brace), text)?;
    take(labels, Kind::CloseBrace, brace, close)
}

/// Adds the tokens of a placeholder at the start of a text, and returns the rest of the text after
/// the call that read it: `rest_len` bytes.
#[inline(never)]
fn placeholder<'a>(
    labels: &mut Vec<Label>,
    mode: ParseMode,
    argument: &Argument<'_>,
    rest_len: usize,
    text: &'a str,
) -> Result<&'a str, AllocError> {
    let field = take(labels, Kind::OpenBrace, 1, text)?;
    let space = position(labels, &argument.position, field)?;
    let spec = take(
        labels,
        Kind::Whitespace,
        run_width(space, Run::Whitespace),
        space,
    )?;
    let last = specification(labels, mode, &argument.format, spec)?;
    let end = take(
        labels,
        Kind::Whitespace,
        run_width(last, Run::Whitespace),
        last,
    )?;
    let rest = take(labels, Kind::CloseBrace, usize::from(begins(end, '}')), end)?;
    skip(labels, width_of(rest).saturating_sub(rest_len), rest)
}

/// Returns the byte length of the doubled brace at the start of a piece of literal text, or 0 if it
/// starts with no brace.
fn escape_width(text: &str) -> usize {
    if begins(text, '{') || begins(text, '}') {
        2
    } else {
        0
    }
}

/// Adds the tokens of a piece of literal text at the start of a text, and returns the rest of the
/// text after it: `rest_len` bytes.
#[inline(never)]
fn literal<'a>(
    labels: &mut Vec<Label>,
    rest_len: usize,
    text: &'a str,
) -> Result<&'a str, AllocError> {
    let rest = take(labels, Kind::EscapedBrace, escape_width(text), text)?;
    take(
        labels,
        Kind::Text,
        width_of(rest).saturating_sub(rest_len),
        rest,
    )
}

/// Adds the labels of a call at the start of a text, and returns the rest of the text after it:
/// `rest_len` bytes. `piece` is the piece that `Parser::next_into` returned, and `argument` the one
/// into which it read a placeholder.
#[inline(never)]
pub fn label<'a>(
    labels: &mut Vec<Label>,
    mode: ParseMode,
    piece: Option<PieceKind<'_>>,
    argument: &Argument<'_>,
    rest_len: usize,
    text: &'a str,
) -> Result<&'a str, AllocError> {
    let Some(piece) = piece else {
        return take(
            labels,
            Kind::CloseBrace,
            width_of(text).saturating_sub(rest_len),
            text,
        );
    };
    match piece {
        PieceKind::Lit(_) => literal(labels, rest_len, text),
        PieceKind::NextArgument => placeholder(labels, mode, argument, rest_len, text),
    }
}

/// Returns the labels of an input, by the calls of a parser at its start.
#[inline(never)]
fn labels_by<'a>(
    parser: &mut Parser<'a>,
    mode: ParseMode,
    input: &'a str,
) -> Result<Vec<Label>, AllocError> {
    let mut labels = Vec::new();
    let mut argument = Argument::default();
    let mut rest = input;
    while !rest.is_empty() {
        let NextPiece {
            piece,
            front_errors: _,
        } = parser.next_into(&mut argument)?;
        // (the errors are not needed, and are freed while they are in the caches)
        parser.take_errors();
        let width = width_of(input).saturating_sub(parser.position());
        rest = label(&mut labels, mode, piece, &argument, width, rest)?;
    }
    Ok(labels)
}

/// Returns the labels of a text, none of them marked.
pub fn labels(input: &str, mode: ParseMode) -> Result<Vec<Label>, AllocError> {
    let mut parser = Parser::new(input, None, None, false, mode)?;
    labels_by(&mut parser, mode, input)
}
