//! The notes of faults, in rustc's words. A function whose name begins with `push_` adds to the end
//! of a list.

// Extracted from crates/call_faults/src/notes.rt by tools/extract: not to be edited.
// That source has the contracts, and is proved. That this text means the same is only tested.

use crate::proved::call_faults::arguments::{index_of, insert, FormatArgument};
use crate::proved::call_faults::checker::CallReport;
use crate::proved::call_faults::faults::CallFault;
use crate::proved::call_faults::missing_labels::star_of;
use crate::proved::call_faults::spots::{bytes_at, CallNote};
use crate::proved::call_faults::titles::{have_numbers, put_name_between, put_number};
use crate::proved::rustc_parse_format::{Alignment, Count, Fault, FormatSpec, Piece, Position};
use crate::proved::text_faults::Spot;
use crate::shim::alloc::AllocError;
use crate::shim::prelude::*;
use alloc::collections::BTreeMap;

/// Adds a note that shows no place.
fn push_plain(notes: &mut Vec<CallNote>, text: &str) -> Result<(), AllocError> {
    let text = String::from(text);
    let spots = Vec::new();
    notes.push(CallNote { text, spots });
    Ok(())
}

/// Adds a note that shows no place, if a test holds.
#[inline]
fn push_if(notes: &mut Vec<CallNote>, has_note: bool, text: &str) -> Result<(), AllocError> {
    if has_note {
        push_plain(notes, text)?;
    }
    Ok(())
}

/// Adds the note of a fault of the string.
fn push_text(notes: &mut Vec<CallNote>, fault: &Fault<'_>) -> Result<(), AllocError> {
    let error = fault.error()?;
    if let Some(note) = &error.note {
        push_plain(notes, note)?;
    }
    Ok(())
}

/// Returns the first note of a name that no argument has.
fn capture_text(name: &str) -> Result<String, AllocError> {
    let mut text = String::new();
    let front = "did you intend to capture a variable ";
    put_name_between(&mut text, front, name, " from the surrounding scope?")?;
    Ok(text)
}

/// Returns the note of a name, where no variable is captured.
#[inline]
fn ambiguity_text() -> &'static str {
    "to avoid ambiguity, `format_args!` cannot capture variables when the format string is expanded from a macro"
}

/// Adds the notes of a name that no argument has.
fn push_name(notes: &mut Vec<CallNote>, name: &str) -> Result<(), AllocError> {
    let text = capture_text(name)?;
    push_plain(notes, &text)?;
    push_plain(notes, ambiguity_text())?;
    Ok(())
}

/// Returns the note on the traits that a placeholder may want, each on a line.
#[inline]
fn traits_text() -> &'static str {
    "the only appropriate formatting traits are:\n\
    - ``, which uses the `Display` trait\n\
    - `?`, which uses the `Debug` trait\n\
    - `e`, which uses the `LowerExp` trait\n\
    - `E`, which uses the `UpperExp` trait\n\
    - `o`, which uses the `Octal` trait\n\
    - `p`, which uses the `Pointer` trait\n\
    - `b`, which uses the `Binary` trait\n\
    - `x`, which uses the `LowerHex` trait\n\
    - `X`, which uses the `UpperHex` trait"
}

/// Returns whether a width or a precision is given.
#[inline]
fn is_given(count: &Count<'_>) -> bool {
    !matches!(count, Count::CountImplied)
}

/// Returns whether an alignment is given.
#[inline]
fn is_aligned(align: Alignment) -> bool {
    !matches!(align, Alignment::AlignUnknown)
}

/// Returns whether a specification has more than a trait.
#[inline(never)]
fn has_flags(format: &FormatSpec<'_>) -> bool {
    ((format.fill.is_some() || is_aligned(format.align))
        || (format.sign.is_some() || format.alternate))
        || ((format.zero_pad || format.debug_hex.is_some())
            || (is_given(&format.width) || is_given(&format.precision)))
}

/// Returns whether a piece has more than a trait.
fn is_flagged(piece: &Piece<'_>) -> bool {
    match piece {
        Piece::Lit(_) => false,
        Piece::NextArgument(argument) => has_flags(&argument.format),
    }
}

/// Returns whether one of these pieces has more than a trait.
#[inline]
fn are_flagged(pieces: &[Piece<'_>]) -> bool {
    for piece in pieces {
        if is_flagged(piece) {
            return true;
        }
    }
    false
}

/// Returns whether a piece takes an argument by `*`.
fn has_star(piece: &Piece<'_>) -> bool {
    match piece {
        Piece::Lit(_) => false,
        Piece::NextArgument(argument) => star_of(&argument.format.precision).is_some(),
    }
}

/// Returns whether one of these pieces takes an argument by `*`.
#[inline]
fn have_stars(pieces: &[Piece<'_>]) -> bool {
    for piece in pieces {
        if has_star(piece) {
            return true;
        }
    }
    false
}

/// Returns the note on how arguments are counted.
#[inline]
fn count_note() -> &'static str {
    "positional arguments are zero-based"
}

/// Returns the note on the flags that a placeholder may have.
#[inline]
fn flags_note() -> &'static str {
    "for information about formatting flags, visit https://doc.rust-lang.org/std/fmt/index.html"
}

/// Adds the notes of missing arguments.
#[inline(never)]
fn push_missing(notes: &mut Vec<CallNote>, pieces: &[Piece<'_>]) -> Result<(), AllocError> {
    let is_counted = have_numbers(pieces) || have_stars(pieces);
    push_if(notes, is_counted, count_note())?;
    push_if(notes, are_flagged(pieces), flags_note())?;
    Ok(())
}

/// Returns whether one of these faults is that arguments are missing.
pub(crate) fn are_missing(faults: &[CallFault<'_>]) -> bool {
    for fault in faults {
        if let CallFault::MissingArguments(_) = fault {
            return true;
        }
    }
    false
}

/// Adds so many placeholders, in words.
#[inline(never)]
pub(crate) fn put_specifiers(out: &mut String, count: usize) -> Result<(), AllocError> {
    if count == 1 {
        out.push_str("a format specifier");
        return Ok(());
    }
    put_number(out, count)?;
    out.push_str(" format specifiers");
    Ok(())
}

/// Adds the note of so many unused arguments, if there is one.
#[inline(never)]
fn push_unused(
    notes: &mut Vec<CallNote>,
    call: &CallReport<'_>,
    count: usize,
) -> Result<(), AllocError> {
    if are_missing(&call.faults) || count == call.indices.len() || count <= 1 {
        return Ok(());
    }
    let mut text = String::from("consider adding ");
    put_specifiers(&mut text, count)?;
    push_plain(notes, &text)?;
    Ok(())
}

/// Returns the variable that an argument is, or `None` if it is no variable.
fn variable_of<'a>(arguments: &[FormatArgument<'a>], index: usize) -> Option<&'a str> {
    match arguments.get(index) {
        Some(argument) => argument.variable,
        None => None,
    }
}

/// Returns the variables that arguments are, as the names that a map has.
#[inline(never)]
fn variables_of<'a>(
    arguments: &[FormatArgument<'a>],
    indices: &[usize],
) -> Result<BTreeMap<&'a str, usize>, AllocError> {
    let mut names = BTreeMap::new();
    for index in indices {
        if let Some(variable) = variable_of(arguments, *index) {
            insert(&mut names, variable, 0)?;
        }
    }
    Ok(names)
}

/// Returns whether a position is a name that a map has.
fn is_name<'a>(names: &BTreeMap<&'a str, usize>, position: &Position<'a>) -> bool {
    match position {
        Position::ArgumentNamed(name) => index_of(names, name).is_some(),
        Position::ArgumentImplicitlyIs(_) | Position::ArgumentIs(_) => false,
    }
}

/// Adds the place of the position of a piece, if that is a name that a map has.
#[inline(never)]
fn push_position<'a>(
    spots: &mut Vec<Spot>,
    names: &BTreeMap<&'a str, usize>,
    piece: &Piece<'a>,
) -> Result<(), AllocError> {
    if let Piece::NextArgument(argument) = piece {
        if is_name(names, &argument.position) {
            spots.push(bytes_at(&argument.position_span));
        }
    }
    Ok(())
}

/// Returns the places of the positions of pieces that are names which a map has.
fn named_positions<'a>(
    names: &BTreeMap<&'a str, usize>,
    pieces: &[Piece<'a>],
) -> Result<Vec<Spot>, AllocError> {
    let mut spots = Vec::new();
    for piece in pieces {
        push_position(&mut spots, names, piece)?;
    }
    Ok(spots)
}

/// Returns the text of the note of so many redundant arguments.
#[inline]
fn redundant_text(count: usize) -> &'static str {
    if count == 1 {
        "the formatting specifier is referencing the binding already"
    } else {
        "the formatting specifiers are referencing the bindings already"
    }
}

/// Adds the note of redundant arguments.
#[inline(never)]
fn push_redundant<'a>(
    notes: &mut Vec<CallNote>,
    call: &CallReport<'a>,
    redundant_indices: &[usize],
) -> Result<(), AllocError> {
    let names = variables_of(call.arguments, redundant_indices)?;
    let spots = named_positions(&names, &call.pieces)?;
    let text = String::from(redundant_text(redundant_indices.len()));
    notes.push(CallNote { text, spots });
    Ok(())
}

impl<'a> CallReport<'a> {
    /// Returns the notes of one of the faults, as rustc has them, but for the note of a warning
    /// which says that it is on by default. A fault of the string has the note of its error.
    #[inline(never)]
    pub(crate) fn notes(&self, fault: &CallFault<'a>) -> Result<Vec<CallNote>, AllocError> {
        let mut notes = Vec::new();
        match fault {
            CallFault::PositionalAfterNamed { .. }
            | CallFault::RepeatedName { .. }
            | CallFault::NameUsedByIndex { .. } => {}
            CallFault::Text(fault) => push_text(&mut notes, fault)?,
            CallFault::MissingName { name, .. } => push_name(&mut notes, name)?,
            CallFault::UnknownTrait { .. } => push_plain(&mut notes, traits_text())?,
            CallFault::MissingArguments(_) => push_missing(&mut notes, &self.pieces)?,
            CallFault::UnusedArguments(unused_indices) => {
                push_unused(&mut notes, self, unused_indices.len())?
            }
            CallFault::RedundantArguments(redundant_indices) => {
                push_redundant(&mut notes, self, redundant_indices)?;
            }
        }
        Ok(notes)
    }
}
