//! What rustc says of a fault.

// Extracted from crates/message_faults/src/diagnostics.rt by tools/extract: not to be edited.
// That source has the contracts, and is proved. That this text means the same is only tested.

use crate::proved::diagnostic::{push_help, push_primary, push_secondary, Diagnostic, Id, Level};
use crate::proved::message_faults::faults::MessageFault;
use crate::proved::message_faults::words::{
    PARAMETER_HELP, POSITIONAL_HELP, POSITIONAL_TITLE, SPECIFIER_HELP, SPECIFIER_TITLE,
};
use crate::proved::rustc_parse_format::Fault;
use crate::proved::text_diagnostics::id_of;
use crate::proved::text_faults::Spot;
use crate::shim::alloc::AllocError;
use crate::shim::prelude::*;

/// Returns the diagnostic of a fault of the text: about its literal, with a label of the place in
/// it.
#[inline(never)]
fn text_diagnostic(fault: &Fault<'_>) -> Result<Diagnostic<Spot>, AllocError> {
    let error = fault.error()?;
    let spot = Spot::Bytes {
        start: error.span.start,
        end: error.span.end,
    };
    let mut labels = Vec::new();
    push_primary(&mut labels, Spot::Literal, "")?;
    push_secondary(&mut labels, spot, &error.label)?;
    Ok(Diagnostic {
        level: Level::Warning,
        id: id_of(fault),
        title: error.description,
        labels,
        notes: Vec::new(),
        suggestions: Vec::new(),
    })
}

/// Returns a diagnostic with one label, which has no text, and a help.
#[inline(never)]
fn at_spot(id: Id, title: String, help: &str, spot: Spot) -> Result<Diagnostic<Spot>, AllocError> {
    let mut labels = Vec::new();
    push_primary(&mut labels, spot, "")?;
    let mut notes = Vec::new();
    push_help(&mut notes, help)?;
    Ok(Diagnostic {
        level: Level::Warning,
        id,
        title,
        labels,
        notes,
        suggestions: Vec::new(),
    })
}

/// Returns the title of a name that is that of no parameter of a trait.
#[inline]
fn parameter_title(name: &str, trait_name: &str) -> Result<String, AllocError> {
    let title = ::alloc::format!("there is no parameter `{name}` on trait `{trait_name}`");
    Ok(title)
}

impl<'a> MessageFault<'a> {
    /// Returns what rustc says of the fault, for a trait of this name: a warning.
    #[inline(never)]
    pub(crate) fn diagnostic(&self, trait_name: &str) -> Result<Diagnostic<Spot>, AllocError> {
        match self {
            MessageFault::Text(fault) => text_diagnostic(fault),
            MessageFault::Specifier { spot } => {
                let title = String::from(SPECIFIER_TITLE);
                at_spot(Id::SpecifierInMessage, title, SPECIFIER_HELP, *spot)
            }
            MessageFault::Positional { spot } => {
                let title = String::from(POSITIONAL_TITLE);
                at_spot(Id::PositionalInMessage, title, POSITIONAL_HELP, *spot)
            }
            MessageFault::MissingParameter { spot, name } => {
                let title = parameter_title(name, trait_name)?;
                at_spot(Id::MissingParameter, title, PARAMETER_HELP, *spot)
            }
        }
    }
}
