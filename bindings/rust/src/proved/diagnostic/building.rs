//! The parts of a diagnostic, made and added. Each function adds to the end of a list, and returns
//! `Err` if an allocation fails; the list is then as it was.

// Extracted from crates/diagnostic/src/building.rt by tools/extract: not to be edited.
// That source has the contracts, and is proved. That this text means the same is only tested.

use crate::proved::diagnostic::parts::{Label, Note, NoteLevel};
use crate::shim::alloc::AllocError;
use crate::shim::prelude::*;

/// Adds a label of a place that the fault is about.
pub fn push_primary<P>(labels: &mut Vec<Label<P>>, place: P, text: &str) -> Result<(), AllocError> {
    let text = String::from(text);
    labels.push(Label {
        place,
        is_primary: true,
        text,
    });
    Ok(())
}

/// Adds a label of another place.
pub fn push_secondary<P>(
    labels: &mut Vec<Label<P>>,
    place: P,
    text: &str,
) -> Result<(), AllocError> {
    let text = String::from(text);
    labels.push(Label {
        place,
        is_primary: false,
        text,
    });
    Ok(())
}

/// Adds a help without edits and without places.
#[inline(never)]
pub fn push_help<P>(notes: &mut Vec<Note<P>>, text: &str) -> Result<(), AllocError> {
    let text = String::from(text);
    notes.push(Note {
        level: NoteLevel::Help,
        text,
        places: Vec::new(),
    });
    Ok(())
}
