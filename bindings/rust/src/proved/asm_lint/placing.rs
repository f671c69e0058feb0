//! Diagnostics with their ranges in the file.

// Extracted from crates/asm_lint/src/placing.rt by tools/extract: not to be edited.
// That source has the contracts, and is proved. That this text means the same is only tested.

use crate::proved::asm_lint::finding_labels::primary_span;
use crate::proved::asm_lint::spans::{spot_range, Site};
use crate::proved::diagnostic::{Diagnostic, Label, Level, Note, NoteLevel};
use crate::proved::source_report::{Finding, Help, Label as FoundLabel, Note as FoundNote};
use crate::proved::text_faults::Spot;
use crate::shim::alloc::AllocError;
use crate::shim::prelude::*;
use core::ops::Range;

/// Returns labels with their ranges.
#[inline(never)]
fn labels(site: Site<'_, '_>, labels: Vec<Label<Spot>>) -> Result<Vec<FoundLabel>, AllocError> {
    let mut list = Vec::new();
    for label in labels {
        list.push(FoundLabel {
            range: spot_range(site, label.place),
            is_primary: label.is_primary,
            text: label.text,
        });
    }
    Ok(list)
}

/// Returns the ranges of places.
fn ranges(site: Site<'_, '_>, places: Vec<Spot>) -> Result<Vec<Range<usize>>, AllocError> {
    let mut list = Vec::new();
    for place in places {
        list.push(spot_range(site, place));
    }
    Ok(list)
}

/// The notes of a diagnostic in its file, and its help.
struct FoundNotes {
    notes: Vec<FoundNote>,
    help: Option<Help>,
}

/// Returns notes with the ranges that they show, and the last help among them.
#[inline(never)]
fn notes(site: Site<'_, '_>, notes: Vec<Note<Spot>>) -> Result<FoundNotes, AllocError> {
    let mut list = Vec::new();
    let mut help = None;
    for note in notes {
        match note.level {
            NoteLevel::Note => {
                let ranges = ranges(site, note.places)?;
                list.push(FoundNote {
                    text: note.text,
                    ranges,
                });
            }
            NoteLevel::Help => {
                help = Some(Help {
                    text: note.text,
                    edits: Vec::new(),
                });
            }
        }
    }
    Ok(FoundNotes { notes: list, help })
}

/// Returns whether a level is that of a warning.
#[inline]
fn is_warning(level: Level) -> bool {
    matches!(level, Level::Warning)
}

/// Returns a diagnostic without suggestions as a finding.
#[inline(never)]
pub fn finding_of(site: Site<'_, '_>, diagnostic: Diagnostic<Spot>) -> Result<Finding, AllocError> {
    let labels = labels(site, diagnostic.labels)?;
    let span = primary_span(site, &labels);
    let FoundNotes { notes, help } = notes(site, diagnostic.notes)?;
    Ok(Finding {
        is_warning: is_warning(diagnostic.level),
        id: diagnostic.id.name(),
        title: diagnostic.title,
        span,
        labels,
        notes,
        help,
    })
}
