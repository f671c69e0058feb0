//! Characters as they are drawn, and the columns that they take. A function whose name begins with
//! `put_` appends to `out`.

// Extracted from crates/drawn_lines/src/glyphs.rt by tools/extract: not to be edited.
// That source has the contracts, and is proved. That this text means the same is only tested.

use crate::proved::drawn_lines::paint::{
    has_colours, put_change, put_closing, put_opening, Palette, Style,
};
use crate::proved::drawn_lines::printable::{split_as_is, split_printable};
use crate::shim::alloc::AllocError;
use crate::shim::prelude::*;
use crate::shim::unicode_width::UnicodeWidthChar;

/// Returns the first character and the text after it, or `None` if the text is empty.
pub fn split_first(text: &str) -> Option<(char, &str)> {
    let mut rest = text.chars();
    let c = rest.next()?;
    Some((c, rest.as_str()))
}

/// Returns whether a character has Unicode's property `Bidi_Control`.
fn is_bidi_control(c: char) -> bool {
    matches!(
        c,
        '\u{61c}' | '\u{200e}'..='\u{200f}' | '\u{202a}'..='\u{202e}' | '\u{2066}'..='\u{2069}'
    )
}

/// Returns the character that is drawn for a character.
pub fn glyph(c: char) -> char {
    match c {
        '\t' => ' ',
        '\n' => '\n',
        '\0'..='\u{1f}' => char::from_u32(0x2400 + c as u32).unwrap_or(c),
        '\u{7f}' => '\u{2421}',
        '\u{80}'..='\u{9f}' => '\u{fffd}',
        _ if is_bidi_control(c) => '\u{fffd}',
        _ => c,
    }
}

/// Returns how often the glyph of a character is drawn.
#[inline]
pub fn glyph_count(c: char) -> usize {
    match c {
        '\t' => 4,
        '\u{200d}' => 0,
        _ => 1,
    }
}

/// Returns how many columns a character takes.
pub fn width(c: char) -> usize {
    match c {
        '\t' => 4,
        _ if is_bidi_control(c) => 1,
        _ => c.width().unwrap_or(1),
    }
}

/// Returns how many columns of the first line of a text are its indent, or `None` if that line is
/// blank. Reads no further than that line's first character that is no white space.
pub fn indent(text: &str) -> Option<usize> {
    let mut rest = text;
    let mut columns = 0;
    while let Some((c, tail)) = split_first(rest) {
        if c == '\n' {
            return None;
        }
        if !c.is_whitespace() {
            return Some(columns);
        }
        columns += if c == '\t' { 4 } else { 1 };
        rest = tail;
    }
    None
}

/// Returns whether nothing is drawn of a text.
pub fn draws_nothing(text: &str) -> bool {
    let mut rest = text;
    while let Some((c, tail)) = split_first(rest) {
        if glyph_count(c) > 0 {
            return false;
        }
        rest = tail;
    }
    true
}

/// Returns 64 spaces.
#[inline]
fn row_of_spaces() -> &'static str {
    "                                                                "
}

/// Returns so many spaces.
#[inline]
fn spaces(count: usize) -> &'static str {
    let row = row_of_spaces();
    &row[..count]
}

/// Adds spaces.
fn put_spaces(out: &mut String, count: usize) -> Result<(), AllocError> {
    let mut countdown = count;
    while countdown > 0 {
        let piece = countdown.min(64);
        out.push_str(spaces(piece));
        countdown -= piece;
    }
    Ok(())
}

/// Adds a character again and again.
pub fn put_run(out: &mut String, c: char, count: usize) -> Result<(), AllocError> {
    if c == ' ' {
        return Ok(put_spaces(out, count)?);
    }
    for _ in 0..count {
        out.push(c);
    }
    Ok(())
}

/// Adds the printable prefix of a text, without its first `count` characters. Returns what is
/// after the prefix, and how many characters are still to skip.
fn put_printable<'a>(
    out: &mut String,
    text: &'a str,
    count: usize,
) -> Result<(&'a str, usize), AllocError> {
    let (front, rest) = split_printable(text, text.len());
    let skip = count.min(front.len());
    out.push_str(&front[skip..]);
    Ok((rest, count - skip))
}

/// Adds a prefix of a text that is drawn as it is, without its first `count` characters. Returns
/// what is after the prefix, and how many characters are still to skip.
fn put_as_is<'a>(
    out: &mut String,
    text: &'a str,
    count: usize,
) -> Result<(&'a str, usize), AllocError> {
    if count > 0 {
        return Ok(put_printable(out, text, count)?);
    }
    let (front, rest) = split_as_is(text);
    out.push_str(front);
    Ok((rest, 0))
}

/// Appends a text as it is drawn in a terminal, without the first `count` characters of that, to
/// `out`: a tab becomes four spaces, another control character of ASCII but the line feed its
/// picture, U+200D nothing, and a control character from U+0080 on and one that changes the
/// direction of text U+FFFD.
pub fn put_glyphs(out: &mut String, text: &str, count: usize) -> Result<(), AllocError> {
    let (front, rest_after) = split_printable(text, text.len());
    if count == 0 && rest_after.is_empty() {
        return Ok(out.push_str(front));
    }
    let (mut rest, mut skip) = put_printable(out, text, count)?;
    while let Some((c, tail)) = split_first(rest) {
        let count = glyph_count(c);
        put_run(out, glyph(c), count.saturating_sub(skip))?;
        let (rest_after, fewer) = put_as_is(out, tail, skip.saturating_sub(count))?;
        rest = rest_after;
        skip = fewer;
    }
    Ok(())
}

/// Adds a text as it is drawn, in a style.
pub fn put_painted_glyphs(
    out: &mut String,
    palette: Palette,
    style: Style,
    text: &str,
) -> Result<(), AllocError> {
    if !has_colours(palette) {
        return Ok(put_glyphs(out, text, 0)?);
    }
    if !draws_nothing(text) {
        put_opening(out, palette, style)?;
        put_glyphs(out, text, 0)?;
        put_closing(out, palette)?;
    }
    Ok(())
}

/// Adds a character again and again, in a style.
pub fn put_painted_run(
    out: &mut String,
    palette: Palette,
    style: Style,
    c: char,
    count: usize,
) -> Result<(), AllocError> {
    if count > 0 {
        put_opening(out, palette, style)?;
        put_run(out, c, count)?;
        put_closing(out, palette)?;
    }
    Ok(())
}

/// Adds a text as it is drawn, in the style `new`, where a text of the style `old` is before
/// it. Returns the style of the last text that is drawn.
pub fn put_glyphs_after(
    out: &mut String,
    palette: Palette,
    old: Style,
    new: Style,
    text: &str,
) -> Result<Style, AllocError> {
    if draws_nothing(text) {
        return Ok(old);
    }
    put_change(out, palette, old, new)?;
    put_glyphs(out, text, 0)?;
    Ok(new)
}
