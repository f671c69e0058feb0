//! The templates of a call, one after the other.

// Extracted from crates/asm_faults/src/templates.rt by tools/extract: not to be edited.
// That source has the contracts, and is proved. That this text means the same is only tested.

use crate::proved::asm_faults::faults::AsmFault;
use crate::proved::asm_faults::lookups::{push_pieces, Walk};
use crate::proved::rustc_parse_format::{Fault, ParseMode};
use crate::proved::text_faults::text_fault;
use crate::shim::alloc::AllocError;
use crate::shim::parser::{read_all, Parser, Reading};
use crate::shim::prelude::*;

/// A template of a call.
#[derive(Clone, Copy)]
pub struct Template<'a> {
    /// The text that it stands for.
    pub text: &'a str,
    /// `None` for an ordinary literal, and `Some` of the number of hashes for a raw one.
    pub style: Option<usize>,
    /// The literal as it is in the source, if it is known.
    pub snippet: Option<&'a str>,
}

/// Returns a text as a string.
fn owned_string(text: Option<&str>) -> Result<Option<String>, AllocError> {
    match text {
        None => Ok(None),
        Some(text) => Ok(Some(String::from(text))),
    }
}

/// Returns the fault of a template that rustc shows, or `None` if it is in the grammar.
#[inline(never)]
fn fault_of<'a>(template: Template<'a>) -> Result<Option<Fault<'a>>, AllocError> {
    let snippet = owned_string(template.snippet)?;
    let mut parser = Parser::new(
        template.text,
        template.style,
        snippet,
        false,
        ParseMode::InlineAsm,
    )?;
    text_fault(&mut parser)
}

/// Adds the lookups for the placeholders of a template.
#[inline(never)]
fn push_template<'a>(
    walk: &mut Walk<'a>,
    index: usize,
    template: Template<'a>,
) -> Result<(), AllocError> {
    let snippet = owned_string(template.snippet)?;
    let Reading { pieces, parser } = read_all(
        template.text,
        template.style,
        snippet,
        false,
        ParseMode::InlineAsm,
    )?;
    push_pieces(walk, index, &pieces, parser.arg_places())?;
    Ok(())
}

/// Adds the lookups for the placeholders of templates, up to the first that is not in the grammar,
/// and returns its fault, or `None` if there is none.
#[inline(never)]
pub(crate) fn push_templates<'a>(
    walk: &mut Walk<'a>,
    templates: &[Template<'a>],
) -> Result<Option<AsmFault<'a>>, AllocError> {
    for (index, template) in templates.iter().enumerate() {
        if let Some(fault) = fault_of(*template)? {
            return Ok(Some(AsmFault::Text {
                template: index,
                fault,
            }));
        }
        push_template(walk, index, *template)?;
    }
    Ok(None)
}
