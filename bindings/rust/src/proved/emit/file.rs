//! A file that was read, and what messages have of a finding in it.

// Extracted from crates/emit/src/file.rt by tools/extract: not to be edited.
// That source has the contracts, and is proved. That this text means the same is only tested.

use crate::proved::emit::message::{Level, Message, Span};
use crate::proved::rust_trees::Places;
use crate::proved::source_report::Finding;
use crate::shim::prelude::*;
use core::ops::Range;

/// A file that was read.
pub struct File<'a> {
    /// The path that is shown.
    pub path: &'a str,
    /// Its text.
    pub text: &'a str,
    /// The places in it.
    pub places: Places<'a>,
}

/// Returns a range of a file as messages have it, without its lines, a label or a suggestion.
#[inline(never)]
pub fn span_of<'a>(file: &File<'a>, range: &Range<usize>) -> Span<'a> {
    let byte_start = file.text.boundary_at_most(range.start);
    let byte_end = file.text.boundary_at_most(range.end);
    Span {
        byte_start,
        byte_end,
        start: file.places.place_of(byte_start),
        end: file.places.place_of(byte_end),
        lines: None,
        is_primary: true,
        label: None,
        suggestion: None,
    }
}

/// Returns the level of a finding.
#[inline]
fn level_of(finding: &Finding) -> Level {
    if finding.is_warning {
        Level::Warning
    } else {
        Level::Error
    }
}

/// Returns a finding as messages of all forms have it.
#[inline(never)]
pub fn message_of<'a>(file: &File<'a>, finding: &'a Finding) -> Message<'a> {
    Message {
        level: level_of(finding),
        id: finding.id,
        title: finding.title.as_str(),
        path: file.path,
        primary: span_of(file, &finding.span),
    }
}
