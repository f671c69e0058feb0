//! Helps of a diagnostic. A function whose name begins with `put_` appends to `out`.

// Extracted from crates/drawn_faults/src/helps.rt by tools/extract: not to be edited.
// That source has the contracts, and is proved. That this text means the same is only tested.

use crate::proved::drawn_edits::{placed_edit, put_edits, put_help_word, Edit};
use crate::proved::drawn_faults::marked::last_edit_line;
use crate::proved::drawn_faults::notes::put_indented_text;
use crate::proved::drawn_lines::{
    put_glyphs, put_painted_text, put_run, Frame, Gutter, Picture, Style,
};
use crate::proved::fault_fixes::Edit as SourceEdit;
use crate::shim::alloc::AllocError;
use crate::shim::prelude::*;

/// A help of a diagnostic.
#[derive(Clone, Copy, Debug)]
pub struct SourceHelp<'a> {
    /// The text, which says what to do.
    pub text: &'a str,
    /// The edits that do it, from left to right. They may be in several lines.
    pub edits: &'a [SourceEdit<'a>],
}

/// Returns edits with their places in the source.
#[inline(never)]
fn placed_edits<'a>(
    picture: &Picture<'_>,
    edits: &[SourceEdit<'a>],
) -> Result<Vec<Edit<'a>>, AllocError> {
    let mut list = Vec::new();
    for edit in edits {
        list.push(placed_edit(picture, edit.text, &edit.span));
    }
    Ok(list)
}

/// Returns the last line that helps edit, or `last` if that is further down.
#[inline(never)]
pub fn last_help_line(
    picture: &Picture<'_>,
    last: usize,
    helps: &[SourceHelp<'_>],
) -> Result<usize, AllocError> {
    let mut line = last;
    for help in helps {
        let edits = placed_edits(picture, help.edits)?;
        line = last_edit_line(line, &edits);
    }
    Ok(line)
}

/// Adds the start of a help without edits.
#[inline(never)]
fn put_help_row_word(out: &mut String, gutter: Gutter) -> Result<(), AllocError> {
    put_run(out, ' ', gutter.columns)?;
    out.push_str(" ");
    put_painted_text(out, gutter.palette, Style::Secondary, "= ")?;
    put_painted_text(out, gutter.palette, Style::Bold, "help")?;
    out.push_str(": ");
    Ok(())
}

/// Adds a help without edits, as a row.
fn put_help_row(out: &mut String, gutter: Gutter, text: &str) -> Result<(), AllocError> {
    put_help_row_word(out, gutter)?;
    put_indented_text(out, gutter, text)?;
    out.push_str("\n");
    Ok(())
}

/// Adds a help and its edits.
#[inline(never)]
fn put_help(out: &mut String, frame: &Frame<'_>, help: &SourceHelp<'_>) -> Result<(), AllocError> {
    if help.edits.is_empty() {
        put_help_row(out, frame.gutter, help.text)?;
        return Ok(());
    }
    put_help_word(out, frame.gutter.palette)?;
    put_glyphs(out, help.text, 0)?;
    out.push_str("\n");
    let edits = placed_edits(frame.picture, help.edits)?;
    put_edits(out, frame, &edits)?;
    Ok(())
}

/// Adds helps.
pub fn put_helps(
    out: &mut String,
    frame: &Frame<'_>,
    helps: &[SourceHelp<'_>],
) -> Result<(), AllocError> {
    for help in helps {
        put_help(out, frame, help)?;
    }
    Ok(())
}
