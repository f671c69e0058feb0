//! Texts in the styles that rustc gives them on a terminal. A function whose name begins with
//! `put_` appends to `out`.

// Extracted from crates/drawn_lines/src/paint.rt by tools/extract: not to be edited.
// That source has the contracts, and is proved. That this text means the same is only tested.

use crate::shim::alloc::AllocError;
use crate::shim::prelude::*;

/// The colours of a drawing.
#[derive(Clone, Copy)]
pub enum Palette {
    Colourless,
    /// The colours of an error.
    Error,
    /// The colours of a warning.
    Warning,
    /// The colours of a note that shows something.
    Note,
}

/// How a text is shown.
#[derive(Clone, Copy)]
pub enum Style {
    /// As the text of the source.
    Plain,
    /// As the signs of a primary label, and as the word that a title begins with.
    Primary,
    /// As the text of a primary label.
    PrimaryText,
    /// As the signs of another label, and as the numbers of lines.
    Secondary,
    /// As the text of another label.
    SecondaryText,
    /// As a title.
    Bold,
    /// As the word that a help begins with.
    Help,
    /// As a text that is new.
    Addition,
    /// As a text that is left out.
    Removal,
}

/// The gutter of a drawing, and its colours.
#[derive(Clone, Copy)]
pub struct Gutter {
    /// How many columns the numbers of the lines have.
    pub columns: usize,
    pub palette: Palette,
}

/// Returns the colours of this level, if there are colours.
#[inline]
pub fn palette_of(colours: bool, level: Palette) -> Palette {
    if colours {
        level
    } else {
        Palette::Colourless
    }
}

/// Returns whether there are colours.
#[inline]
pub fn has_colours(palette: Palette) -> bool {
    !matches!(palette, Palette::Colourless)
}

/// Returns the escapes that set the colour of a level.
fn level_escape(palette: Palette) -> &'static str {
    match palette {
        Palette::Colourless => "",
        Palette::Error => "\u{1b}[1m\u{1b}[91m",
        Palette::Warning => "\u{1b}[1m\u{1b}[33m",
        Palette::Note => "\u{1b}[1m\u{1b}[92m",
    }
}

/// Returns the escapes that set a style.
pub fn escape(palette: Palette, style: Style) -> &'static str {
    match style {
        Style::Plain => "",
        Style::Primary | Style::PrimaryText => level_escape(palette),
        Style::Secondary | Style::SecondaryText => "\u{1b}[1m\u{1b}[94m",
        Style::Bold => "\u{1b}[1m",
        Style::Help => "\u{1b}[1m\u{1b}[96m",
        Style::Addition => "\u{1b}[92m",
        Style::Removal => "\u{1b}[91m",
    }
}

/// Returns a number of a style.
pub fn rank(style: Style) -> u8 {
    match style {
        Style::Plain => 0,
        Style::Primary => 1,
        Style::PrimaryText => 2,
        Style::Secondary => 3,
        Style::SecondaryText => 4,
        Style::Bold => 5,
        Style::Help => 6,
        Style::Addition => 7,
        Style::Removal => 8,
    }
}

/// Adds the escape that ends a style, if it has one.
pub fn put_reset(out: &mut String, style: Style) -> Result<(), AllocError> {
    if rank(style) != 0 {
        out.push_str("\u{1b}[0m");
    }
    Ok(())
}

/// Adds the escapes between a text of one style and a text of another.
pub fn put_change(
    out: &mut String,
    palette: Palette,
    old: Style,
    new: Style,
) -> Result<(), AllocError> {
    if rank(old) == rank(new) {
        return Ok(());
    }
    put_reset(out, old)?;
    out.push_str(escape(palette, new));
    Ok(())
}

/// Adds a text in a style, without its end.
pub fn put_sign(
    out: &mut String,
    palette: Palette,
    style: Style,
    sign: &str,
) -> Result<(), AllocError> {
    put_change(out, palette, Style::Plain, style)?;
    out.push_str(sign);
    Ok(())
}

/// Adds the escapes before a text in a style.
#[inline]
pub fn put_opening(out: &mut String, palette: Palette, style: Style) -> Result<(), AllocError> {
    if has_colours(palette) {
        out.push_str(escape(palette, style));
    }
    Ok(())
}

/// Adds the escape after a text in a style.
#[inline]
pub fn put_closing(out: &mut String, palette: Palette) -> Result<(), AllocError> {
    if has_colours(palette) {
        out.push_str("\u{1b}[0m");
    }
    Ok(())
}

/// Adds a text in a style.
#[inline]
pub fn put_painted_text(
    out: &mut String,
    palette: Palette,
    style: Style,
    text: &str,
) -> Result<(), AllocError> {
    if !text.is_empty() {
        put_opening(out, palette, style)?;
        out.push_str(text);
        put_closing(out, palette)?;
    }
    Ok(())
}

/// Adds a space and the bar of a gutter.
#[inline]
pub fn put_gutter_bar(out: &mut String, palette: Palette) -> Result<(), AllocError> {
    match palette {
        Palette::Colourless => out.push_str(" |"),
        Palette::Error | Palette::Warning | Palette::Note => {
            out.push_str(" \u{1b}[1m\u{1b}[94m|\u{1b}[0m");
        }
    }
    Ok(())
}

/// Adds the start of a note, after the columns of the gutter.
pub fn put_note_sign(out: &mut String, palette: Palette) -> Result<(), AllocError> {
    match palette {
        Palette::Colourless => out.push_str(" = note: "),
        Palette::Error | Palette::Warning | Palette::Note => {
            out.push_str(" \u{1b}[1m\u{1b}[94m= \u{1b}[0m\u{1b}[1mnote\u{1b}[0m: ");
        }
    }
    Ok(())
}
