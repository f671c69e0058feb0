//! String literals as they are written in a program: the characters that a content stands for with
//! their byte ranges, and whether a snippet is the source literal of an input. The content of a
//! literal is the text between its quotes.

// Extracted from crates/rustc_parse_format/src/literal.rt by tools/extract: not to be edited.
// That source has the contracts, and is proved. That this text means the same is only tested.

use crate::shim::prelude::*;
pub(crate) mod rest;
pub(crate) mod unit;

use crate::proved::rustc_parse_format::characters::Class;
use crate::shim::alloc::AllocError;
use core::ops::Range;
pub(crate) use rest::Rest;
use unit::byte_escape;
pub(crate) use unit::{is_newline_escape, read_unit};

/// The first unit of a content, a plain character or an escape, and the text after it.
pub struct FirstUnit<'a> {
    /// The character that the unit stands for, or `None` for a string continuation, which stands
    /// for nothing.
    pub character: Option<char>,
    /// The rest of the content after the unit.
    pub rest: &'a str,
}

/// Returns the first unit of a content, or `None` if the text begins with no unit: it is empty or
/// begins with a quote, a CR or a wrong escape.
///
/// The rule is that of string literals in the Rust Reference. Does not allocate.
#[inline]
pub fn split_first_unit(content: &str) -> Option<FirstUnit<'_>> {
    let mut rest = Rest::new(content);
    let character = read_unit(&mut rest)?;
    Some(FirstUnit {
        character,
        rest: rest.text(),
    })
}

/// A character that a content stands for.
#[derive(Clone, Debug, Eq, PartialEq)]
pub struct ContentCharacter {
    /// The byte range of the content that the character comes from.
    pub span: Range<usize>,
    /// The character.
    pub character: char,
}

/// Returns the characters that a content stands for, or `None` if the text is no content, as
/// `content_characters` computes them.
#[inline]
fn read_characters(content: &str) -> Result<Option<Vec<ContentCharacter>>, AllocError> {
    let mut list = Vec::new();
    let mut rest = Rest::new(content);
    let total = rest.len();
    let mut at = 0;
    while !rest.is_empty() {
        let Some(value) = read_unit(&mut rest) else {
            return Ok(None);
        };
        let end = total - rest.len();
        if let Some(c) = value {
            list.try_push(ContentCharacter {
                span: at..end,
                character: c,
            })?;
        }
        at = end;
    }
    Ok(Some(list))
}

/// Returns the characters that the content of an ordinary string literal stands for, in order, or
/// `None` if the text is not the content of such a literal.
///
/// The rule is that of string literals in the Rust Reference. A string continuation, a backslash
/// before an LF with all HT, LF, CR and space after it, stands for nothing. The list is allocated
/// with `alloc`: returns `Err` if an allocation fails. For an empty content it always returns `Ok`.
#[inline]
pub fn read_content(content: &str) -> Result<Option<Vec<ContentCharacter>>, AllocError> {
    read_characters(content)
}

/// Appends the plain characters that come next to a text.
#[inline(always)]
fn put_plain(text: &mut String, rest: &mut Rest<'_>) -> Result<(), AllocError> {
    let run = rest.take_run(Class::Plain);
    if !run.is_empty() {
        text.push_str(run);
    }
    Ok(())
}

/// Appends a character to a text.
#[inline(always)]
fn put_char(text: &mut String, c: char) -> Result<(), AllocError> {
    text.try_push(c)?;
    Ok(())
}

/// The most bytes that a text gets room for before any of it is read.
const FIRST_ROOM: usize = 4096;

/// Gives back the room that a text does not need, if it needs less than half of it.
#[inline]
fn shrink(text: &mut String) {
    if text.len() < text.capacity() / 2 {
        text.shrink_to_fit();
    }
}

/// Returns the text that the content of an ordinary string literal stands for: the characters that
/// [`read_content`] returns, without their byte ranges. Returns `None` if the text is not the
/// content of such a literal.
///
/// The text is allocated with `alloc`: returns `Err` if an allocation fails. For an empty content
/// it always returns `Ok`.
#[inline]
pub fn content_text(content: &str) -> Result<Option<String>, AllocError> {
    // no unit is shorter than its value; a longer content may be refused at its start
    let mut text = String::with_capacity(content.len().min(FIRST_ROOM));
    let mut rest = Rest::new(content);
    put_plain(&mut text, &mut rest)?;
    while !rest.is_empty() {
        let Some(value) = read_unit(&mut rest) else {
            return Ok(None);
        };
        if let Some(c) = value {
            put_char(&mut text, c)?;
        }
        put_plain(&mut text, &mut rest)?;
    }
    shrink(&mut text);
    Ok(Some(text))
}

/// Returns the text before the newline at its end, or `None` if the text does not end with one.
#[inline]
fn before_newline(text: &str) -> Option<&str> {
    text.strip_suffix('\n')
}

/// Returns the input without the newline that a macro appended to it, or `None` if one was appended
/// and the input does not end with it.
#[inline]
fn strip_newline(input: &str, appended: bool) -> Option<&str> {
    if appended {
        before_newline(input)
    } else {
        Some(input)
    }
}

/// Returns the text between the first and the last character, or `None` if these are not two
/// quotes. Does not check that the text is the content of a literal (`read_content` does). Does
/// not allocate.
#[inline]
pub fn quoted_content(snippet: &str) -> Option<&str> {
    match snippet.strip_prefix('"') {
        Some(rest_after) => rest_after.strip_suffix('"'),
        None => None,
    }
}

/// Skips the `\x` escapes at the start of a content and, in a text, the characters that they stand
/// for, up to the first escape with which the text does not go on.
#[inline(always)]
fn skip_byte_escapes(rest: &mut Rest<'_>, expected: &mut Rest<'_>) {
    while let Some((byte, rest_after)) = byte_escape(rest.text()) {
        if !expected.consume_ascii(byte) {
            return;
        }
        *rest = Rest::new(rest_after);
    }
}

/// Skips the `\x` escapes at the start of a content, with the characters of a text that they stand
/// for, and the plain characters with which both then go on.
#[inline(always)]
fn skip_alike(rest: &mut Rest<'_>, expected: &mut Rest<'_>) {
    skip_byte_escapes(rest, expected);
    rest.skip_plain(expected);
}

/// Returns where the text ends that the content stands for, as a byte offset that counts the quote
/// before the content, or `None` if the content does not stand for the text.
#[inline]
fn spelled_end(content: &str, text: &str) -> Option<usize> {
    let total = content.len() + 1;
    let mut rest = Rest::new(content);
    let mut expected = Rest::new(text);
    rest.skip_plain(&mut expected);
    let mut end = total - rest.len();
    while !rest.is_empty() {
        let Some(value) = read_unit(&mut rest) else {
            return None;
        };
        if let Some(c) = value {
            if !expected.next_eq(c) {
                return None;
            }
            skip_alike(&mut rest, &mut expected);
            end = total - rest.len();
        }
    }
    if expected.is_empty() {
        Some(end)
    } else {
        None
    }
}

/// Returns the byte offset in an ordinary literal at which the text ends that it stands for, or
/// `None` if the snippet is no such literal.
#[inline]
fn ordinary_end(snippet: &str, text: &str) -> Option<usize> {
    match quoted_content(snippet) {
        Some(content) => spelled_end(content, text),
        None => None,
    }
}

/// Consumes this many hashes, and returns whether they were there.
#[inline]
fn consume_hashes(rest: &mut Rest<'_>, hashes: usize) -> bool {
    let mut countdown = hashes;
    while countdown > 0 {
        if !rest.next_eq('#') {
            return false;
        }
        countdown -= 1;
    }
    true
}

/// Consumes the opening of a raw literal, `r`, the hashes and a quote, and returns whether it was
/// there.
#[inline]
fn consume_opening(rest: &mut Rest<'_>, hashes: usize) -> bool {
    if !rest.next_eq('r') {
        return false;
    }
    if !consume_hashes(rest, hashes) {
        return false;
    }
    rest.next_eq('"')
}

/// Consumes this text, and returns whether it was there.
#[inline]
fn consume_text(rest: &mut Rest<'_>, text: &str) -> bool {
    let mut expected = Rest::new(text);
    while let Some(c) = expected.next() {
        if !rest.next_eq(c) {
            return false;
        }
    }
    true
}

/// Consumes the closing of a raw literal, a quote and the hashes, and returns whether it was there.
#[inline]
fn consume_closing(rest: &mut Rest<'_>, hashes: usize) -> bool {
    rest.next_eq('"') && consume_hashes(rest, hashes)
}

/// Returns whether the snippet is a raw literal with this many hashes that stands for the text.
#[inline]
fn is_raw_literal(snippet: &str, hashes: usize, text: &str) -> bool {
    let mut rest = Rest::new(snippet);
    if !consume_opening(&mut rest, hashes) {
        return false;
    }
    if !consume_text(&mut rest, text) {
        return false;
    }
    consume_closing(&mut rest, hashes) && rest.is_empty()
}

/// Returns the byte offset in a raw literal at which the text ends that it stands for, or `None` if
/// the snippet is no such literal with this many hashes.
#[inline]
fn raw_end(snippet: &str, hashes: usize, text: &str) -> Option<usize> {
    if is_raw_literal(snippet, hashes, text) {
        Some(snippet.len() - hashes - 1)
    } else {
        None
    }
}

/// Returns the byte offset at which the text of the source literal of the input ends, or `None` if
/// the snippet is not its source literal.
#[inline]
pub(crate) fn source_end(
    input: &str,
    style: Option<usize>,
    snippet: &str,
    appended_newline: bool,
) -> Option<usize> {
    let text = strip_newline(input, appended_newline)?;
    match style {
        None => ordinary_end(snippet, text),
        Some(hashes) => raw_end(snippet, hashes, text),
    }
}

/// Returns whether the snippet is the source literal of the input: a string literal of this style
/// that stands for the input. The style is `None` for an ordinary literal, `Some(n)` for a raw one
/// with n hashes. With an appended newline, the input ends in a newline that the literal does not
/// have.
///
/// The rule is that of string literals in the Rust Reference, except that a raw literal may hold
/// any character. Does not allocate.
#[inline]
pub fn is_source_literal(
    input: &str,
    style: Option<usize>,
    snippet: &str,
    appended_newline: bool,
) -> bool {
    source_end(input, style, snippet, appended_newline).is_some()
}
