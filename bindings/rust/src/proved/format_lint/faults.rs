//! A source, its tokens and its faults.

// Extracted from crates/format_lint/src/faults.rt by tools/extract: not to be edited.
// That source has the contracts, and is proved. That this text means the same is only tested.

use super::findings::Findings;
use crate::proved::format_tokens::{label, place_labels, Label, Token};
use crate::proved::rustc_parse_format::{Argument, ParseMode};
use crate::shim::alloc::AllocError;
use crate::shim::parser::Parser;
use crate::shim::prelude::*;

/// A text, with the style of the literal that it is in and the literal as it is written, and the
/// lines that it is drawn in.
#[derive(Copy, Clone)]
pub struct Source<'a> {
    pub text: &'a str,
    pub style: Option<usize>,
    pub literal: Option<&'a str>,
    /// The lines around the text.
    pub lines: &'a str,
    /// The number of the first of these lines.
    pub line_start: u32,
    /// The byte offset in the lines that a span of 0 means.
    pub start: usize,
}

/// Returns the faults of all calls of a parser without errors. Returns `Err` if an allocation
/// fails, or if there are more faults than a `usize` counts.
#[inline(never)]
fn faults_of<'a>(parser: &mut Parser<'a>) -> Result<Findings<'a>, AllocError> {
    let mut argument = Argument::default();
    let mut list = Vec::new();
    let mut faults = Findings::new();
    while !parser.is_at_end() {
        parser.next_with_faults(&mut argument, &mut list)?;
        faults.add(&mut list)?;
    }
    Ok(faults)
}

/// The labels of a source's text, and its faults.
struct Labelled<'a> {
    labels: Vec<Label>,
    faults: Findings<'a>,
}

/// Returns the labels of a source's text and its faults, by the calls of a parser at its start.
/// Returns `Err` as `faults_of` does.
#[inline(never)]
fn labels_of<'a>(
    parser: &mut Parser<'a>,
    mode: ParseMode,
    source: Source<'a>,
) -> Result<Labelled<'a>, AllocError> {
    let text = source.text;
    let mut argument = Argument::default();
    let mut labels = Vec::new();
    let mut list = Vec::new();
    let mut faults = Findings::new();
    let mut rest = text;
    while !rest.is_empty() {
        let piece = parser.next_with_faults(&mut argument, &mut list)?;
        faults.add(&mut list)?;
        let width = text.len().saturating_sub(parser.position());
        rest = label(&mut labels, mode, piece, &argument, width, rest)?;
    }
    Ok(Labelled { labels, faults })
}

/// Returns a parser at the start of a source.
#[inline(never)]
fn parser_of<'a>(mode: ParseMode, source: Source<'a>) -> Result<Parser<'a>, AllocError> {
    let snippet = match source.literal {
        Some(literal) => Some(String::from(literal)),
        None => None,
    };
    Parser::new(source.text, source.style, snippet, false, mode)
}

/// Returns the faults of a source. Returns `Err` as `faults_of` does.
#[inline]
pub fn faults_in<'a>(mode: ParseMode, source: Source<'a>) -> Result<Findings<'a>, AllocError> {
    let mut parser = parser_of(mode, source)?;
    faults_of(&mut parser)
}

/// The tokens of a source, and its faults.
pub struct Tokens<'a> {
    pub tokens: Vec<Token>,
    pub faults: Findings<'a>,
}

/// Returns the tokens of a source, and its faults. Returns `Err` as `faults_of` does.
#[inline(never)]
pub fn tokens_in<'a>(mode: ParseMode, source: Source<'a>) -> Result<Tokens<'a>, AllocError> {
    let mut parser = parser_of(mode, source)?;
    let Labelled { labels, faults } = labels_of(&mut parser, mode, source)?;
    let tokens = place_labels(
        source.text,
        source.style,
        source.literal,
        false,
        mode,
        labels.as_slice(),
    )?;
    Ok(Tokens { tokens, faults })
}
