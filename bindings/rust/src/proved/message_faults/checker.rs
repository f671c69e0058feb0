//! The check of a text.

// Extracted from crates/message_faults/src/checker.rt by tools/extract: not to be edited.
// That source has the contracts, and is proved. That this text means the same is only tested.

use crate::proved::message_faults::faults::MessageFault;
use crate::proved::rustc_parse_format::{Argument, Fault, ParseMode, Piece, Position};
use crate::proved::text_faults::{text_fault, Spot};
use crate::shim::alloc::AllocError;
use crate::shim::parser::{read_all, Parser, Reading};
use crate::shim::prelude::*;
use alloc::collections::BTreeSet;
use core::ops::Range;

/// A text of an attribute.
#[derive(Clone, Copy)]
pub struct Message<'a, 's, 'p> {
    /// The text that its literal stands for.
    pub text: &'a str,
    /// The literal as it is in the source, if it is known. In a raw one no place is shown: rustc
    /// takes it for an ordinary one.
    pub snippet: Option<&'a str>,
    /// The names of the parameters of the trait that are types or constants, or `None` if other
    /// names mean something too, as in the attribute of the compiler itself.
    pub parameters: Option<&'s BTreeSet<&'p str>>,
}

/// Returns a text as a string.
fn owned_string(text: Option<&str>) -> Result<Option<String>, AllocError> {
    match text {
        None => Ok(None),
        Some(text) => Ok(Some(String::from(text))),
    }
}

/// Returns the fault of a text that rustc shows, or `None` if it is in the grammar.
#[inline(never)]
fn fault_of<'a>(message: Message<'a, '_, '_>) -> Result<Option<Fault<'a>>, AllocError> {
    let snippet = owned_string(message.snippet)?;
    let mut parser = Parser::new(message.text, None, snippet, false, ParseMode::Diagnostic)?;
    text_fault(&mut parser)
}

/// Puts a name into a set.
#[inline]
fn insert<'a>(names: &mut BTreeSet<&'a str>, name: &'a str) -> Result<(), AllocError> {
    names.insert(name);
    Ok(())
}

/// Returns the set of the names of parameters, for [`Message::parameters`].
pub fn names_of<'a>(parameters: &[&'a str]) -> Result<BTreeSet<&'a str>, AllocError> {
    let mut names = BTreeSet::new();
    for parameter in parameters {
        insert(&mut names, parameter)?;
    }
    Ok(names)
}

/// Returns whether a set has a name.
#[inline]
fn has_name(names: &BTreeSet<&str>, name: &str) -> bool {
    names.contains(name)
}

/// Returns whether a name is `Self`.
#[inline]
fn is_self(name: &str) -> bool {
    name == "Self"
}

/// Returns a range of the literal, or all of it where its ranges are not known.
fn spot_of(is_known: bool, span: &Range<usize>) -> Spot {
    if !is_known {
        return Spot::Literal;
    }
    Spot::Bytes {
        start: span.start,
        end: span.end,
    }
}

/// Adds the fault of the specification of a placeholder, if it has one.
fn push_specifier<'a>(
    faults: &mut Vec<MessageFault<'a>>,
    is_known: bool,
    span: &Option<Range<usize>>,
) -> Result<(), AllocError> {
    if let Some(span) = span {
        faults.push(MessageFault::Specifier {
            spot: spot_of(is_known, span),
        });
    }
    Ok(())
}

/// Adds the fault of a name, if it is that of no parameter.
#[inline(never)]
fn push_name<'a>(
    faults: &mut Vec<MessageFault<'a>>,
    names: Option<&BTreeSet<&str>>,
    spot: Spot,
    name: &'a str,
) -> Result<(), AllocError> {
    if let Some(names) = names {
        if !is_self(name) && !has_name(names, name) {
            faults.push(MessageFault::MissingParameter { spot, name });
        }
    }
    Ok(())
}

/// Adds the faults of a placeholder.
#[inline(never)]
fn push_placeholder<'a>(
    faults: &mut Vec<MessageFault<'a>>,
    names: Option<&BTreeSet<&str>>,
    is_known: bool,
    argument: &Argument<'a>,
) -> Result<(), AllocError> {
    push_specifier(faults, is_known, &argument.format.ty_span)?;
    let spot = spot_of(is_known, &argument.position_span);
    match argument.position {
        Position::ArgumentNamed(name) => push_name(faults, names, spot, name)?,
        Position::ArgumentIs(_) | Position::ArgumentImplicitlyIs(_) => {
            faults.push(MessageFault::Positional { spot });
        }
    }
    Ok(())
}

/// Adds the faults of a piece.
fn push_piece<'a>(
    faults: &mut Vec<MessageFault<'a>>,
    names: Option<&BTreeSet<&str>>,
    is_known: bool,
    piece: &Piece<'a>,
) -> Result<(), AllocError> {
    match piece {
        Piece::Lit(_) => Ok(()),
        Piece::NextArgument(argument) => push_placeholder(faults, names, is_known, argument),
    }
}

/// Adds the faults of pieces.
fn push_pieces<'a>(
    faults: &mut Vec<MessageFault<'a>>,
    names: Option<&BTreeSet<&str>>,
    is_known: bool,
    pieces: &[Piece<'a>],
) -> Result<(), AllocError> {
    for piece in pieces {
        push_piece(faults, names, is_known, piece)?;
    }
    Ok(())
}

/// Adds the faults of the placeholders of a text.
#[inline(never)]
fn push_placeholders<'a>(
    faults: &mut Vec<MessageFault<'a>>,
    message: Message<'a, '_, '_>,
) -> Result<(), AllocError> {
    let snippet = owned_string(message.snippet)?;
    let Reading { pieces, parser } =
        read_all(message.text, None, snippet, false, ParseMode::Diagnostic)?;
    let is_known = parser.is_source_literal();
    push_pieces(faults, message.parameters, is_known, &pieces)?;
    Ok(())
}

/// Returns the faults of a text.
#[inline(never)]
fn faults_of<'a>(message: Message<'a, '_, '_>) -> Result<Vec<MessageFault<'a>>, AllocError> {
    let mut faults = Vec::new();
    match fault_of(message)? {
        Some(fault) => faults.push(MessageFault::Text(fault)),
        None => push_placeholders(&mut faults, message)?,
    }
    Ok(faults)
}

/// Checks a text of the attribute `diagnostic::on_unimplemented`, and returns its faults in the
/// order of its placeholders, of which the specifications and the positions are looked at.
///
/// The length of the text in bytes and 2 must together be less than 2^64.
#[inline]
pub fn message_faults<'a>(
    message: Message<'a, '_, '_>,
) -> Result<Vec<MessageFault<'a>>, AllocError> {
    faults_of(message)
}
