//! The form for the workflows of GitHub.

// Extracted from crates/emit/src/github.rt by tools/extract: not to be edited.
// That source has the contracts, and is proved. That this text means the same is only tested.

use crate::proved::emit::escapes::put_number;
use crate::proved::emit::message::{level_name, Message, Span};
use crate::proved::shown_text::{put_shown, Kind};
use crate::shim::alloc::AllocError;
use crate::shim::prelude::*;

/// Appends a property with a number.
fn put_property(out: &mut String, opening: &str, number: usize) -> Result<(), AllocError> {
    out.push_str(opening);
    put_number(out, number)?;
    Ok(())
}

/// Appends the properties that say where a span is. Columns are only written where it is in one
/// line.
#[inline(never)]
fn put_places(out: &mut String, span: &Span<'_>) -> Result<(), AllocError> {
    put_property(out, ",line=", span.start.line)?;
    if span.start.line == span.end.line {
        put_property(out, ",col=", span.start.column)?;
        put_property(out, ",endColumn=", span.end.column)?;
    } else {
        put_property(out, ",endLine=", span.end.line)?;
    }
    Ok(())
}

/// Appends a message as a workflow command of GitHub Actions, which shows it beside the source:
/// `::LEVEL file=PATH,line=LINE,col=COLUMN,endColumn=COLUMN::TITLE [ID]`.
#[inline(never)]
pub fn put_github(out: &mut String, message: &Message<'_>) -> Result<(), AllocError> {
    out.push_str("::");
    out.push_str(level_name(message.level));
    out.push_str(" file=");
    put_shown(out, Kind::Property, message.path)?;
    put_places(out, &message.primary)?;
    out.push_str("::");
    put_shown(out, Kind::Message, message.title)?;
    out.push_str(" [");
    put_shown(out, Kind::Message, message.id)?;
    out.push_str("]\n");
    Ok(())
}
