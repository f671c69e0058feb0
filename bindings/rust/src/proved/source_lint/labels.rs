//! The notes and helps of findings, with their ranges in the file.

// Extracted from crates/source_lint/src/labels.rt by tools/extract: not to be edited.
// That source has the contracts, and is proved. That this text means the same is only tested.

use crate::proved::asm_lint::{spot_range, Site};
use crate::proved::call_faults::{CallEdit, CallHelp, CallNote};
use crate::proved::source_report::{Edit, Help, Note};
use crate::proved::text_faults::Spot;
use crate::shim::alloc::AllocError;
use crate::shim::prelude::*;
use core::ops::Range;

/// Returns the ranges of places of a call.
fn ranges(site: Site<'_, '_>, spots: &[Spot]) -> Result<Vec<Range<usize>>, AllocError> {
    let mut ranges = Vec::new();
    for spot in spots {
        ranges.push(spot_range(site, *spot));
    }
    Ok(ranges)
}

/// Returns notes of a call with the ranges that they show.
pub fn notes(site: Site<'_, '_>, notes: Vec<CallNote>) -> Result<Vec<Note>, AllocError> {
    let mut list = Vec::new();
    for note in notes {
        let ranges = ranges(site, &note.spots)?;
        list.push(Note {
            text: note.text,
            ranges,
        });
    }
    Ok(list)
}

/// Appends the source of a place of a call, if there is one.
fn put_source(out: &mut String, site: Site<'_, '_>, spot: Option<Spot>) -> Result<(), AllocError> {
    if let Some(spot) = spot {
        let range = spot_range(site, spot);
        out.push_str(&site.text[range.start..range.end]);
    }
    Ok(())
}

/// Returns the new text of an edit, from that before the source that it copies, that source and the
/// rest.
fn edit_text(site: Site<'_, '_>, edit: CallEdit) -> Result<String, AllocError> {
    let mut text = edit.text;
    put_source(&mut text, site, edit.copied_spot)?;
    text.push_str(edit.rest);
    Ok(text)
}

/// Returns edits of a call with their ranges.
fn edits(site: Site<'_, '_>, edits: Vec<CallEdit>) -> Result<Vec<Edit>, AllocError> {
    let mut list = Vec::new();
    for edit in edits {
        let range = spot_range(site, edit.spot);
        let text = edit_text(site, edit)?;
        list.push(Edit { range, text });
    }
    Ok(list)
}

/// Returns a help of a call with the ranges of its edits.
pub fn help(site: Site<'_, '_>, help: Option<CallHelp>) -> Result<Option<Help>, AllocError> {
    match help {
        None => Ok(None),
        Some(help) => {
            let edits = edits(site, help.edits)?;
            Ok(Some(Help {
                text: help.text,
                edits,
            }))
        }
    }
}
