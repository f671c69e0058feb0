//! The edits that inline a call in its file.

// Extracted from crates/file_inlines/src/edits.rt by tools/extract: not to be edited.
// That source has the contracts, and is proved. That this text means the same is only tested.

use crate::proved::asm_lint::{dropped_crs, offset_in, without_crs};
use crate::proved::file_inlines::sources::removal_range;
use crate::proved::format_calls::Argument;
use crate::proved::inlined_arguments::{apply_edits, Edit, InlinedCall};
use crate::proved::rust_trees::Token;
use crate::proved::source_lint::argument_at;
use crate::shim::alloc::AllocError;
use crate::shim::prelude::*;

/// Returns the edits of a literal with lines that end with LF as edits of its token, which has
/// these CRs more.
#[inline(never)]
fn token_edits(crs: &[usize], edits: &[Edit]) -> Result<Vec<Edit>, AllocError> {
    let mut list = Vec::new();
    for edit in edits {
        list.push(Edit {
            span: offset_in(crs, edit.span.start)..offset_in(crs, edit.span.end),
            text: String::from(edit.text.as_str()),
        });
    }
    Ok(list)
}

/// Returns edits that stand some bytes further on.
#[inline(never)]
fn move_edits(edits: &[Edit], offset: usize) -> Result<Vec<Edit>, AllocError> {
    let mut list = Vec::new();
    for edit in edits {
        let start = offset.saturating_add(edit.span.start);
        let end = offset.saturating_add(edit.span.end);
        list.push(Edit {
            span: start..end,
            text: String::from(edit.text.as_str()),
        });
    }
    Ok(list)
}

/// Adds the edits that remove the arguments of these indices, with their source.
#[inline(never)]
fn push_removals(
    edits: &mut Vec<Edit>,
    text: &str,
    tokens: &[Token<'_>],
    arguments: &[Argument],
    indices: &[usize],
) -> Result<(), AllocError> {
    for index in indices {
        if let Some(argument) = argument_at(arguments, *index) {
            edits.push(Edit {
                span: removal_range(text, tokens, &argument),
                text: String::new(),
            });
        }
    }
    Ok(())
}

/// Returns whether a token, without the CR before each LF, is this literal.
fn is_literal(token: &str, literal: &str) -> Result<bool, AllocError> {
    let text = without_crs(token)?;
    Ok(text.as_str() == literal)
}

/// Returns whether a token with these edits is the new literal, up to the CR before each LF.
#[inline(never)]
fn make_literal(
    literal: Token<'_>,
    inlining: &InlinedCall,
    edits: &[Edit],
) -> Result<bool, AllocError> {
    match apply_edits(literal.text, edits)? {
        Some(new) => is_literal(new.as_str(), inlining.literal.as_str()),
        None => Ok(false),
    }
}

/// Returns the edits of the literal that a token is, as edits of its file, or `None` if the token
/// with them is not the new literal.
#[inline(never)]
fn literal_edits(
    literal: Token<'_>,
    inlining: &InlinedCall,
) -> Result<Option<Vec<Edit>>, AllocError> {
    let crs = dropped_crs(literal.text)?;
    let inside_edits = token_edits(&crs, inlining.edits.as_slice())?;
    if !make_literal(literal, inlining, &inside_edits)? {
        return Ok(None);
    }
    Ok(Some(move_edits(&inside_edits, literal.start)?))
}

/// Returns the edits that inline a call, with this token as its literal and these arguments after
/// it, or `None` if the token with its edits is not the new literal.
#[inline(never)]
pub(crate) fn edits_of(
    text: &str,
    tokens: &[Token<'_>],
    literal: Token<'_>,
    arguments: &[Argument],
    inlining: &InlinedCall,
) -> Result<Option<Vec<Edit>>, AllocError> {
    let Some(mut edits) = literal_edits(literal, inlining)? else {
        return Ok(None);
    };
    push_removals(
        &mut edits,
        text,
        tokens,
        arguments,
        inlining.removed_indices.as_slice(),
    )?;
    Ok(Some(edits))
}
