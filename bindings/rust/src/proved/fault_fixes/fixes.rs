//! What the suggestions of errors make of a literal: the edits that a machine may apply, and the
//! literal with them applied.

// Extracted from crates/fault_fixes/src/fixes.rt by tools/extract: not to be edited.
// That source has the contracts, and is proved. That this text means the same is only tested.

use crate::proved::rustc_parse_format::literal::is_source_literal;
use crate::proved::rustc_parse_format::{Argument, Fault, ParseError, ParseMode, Suggestion};
use crate::shim::alloc::AllocError;
use crate::shim::parser::Parser;
use crate::shim::prelude::*;
use core::ops::Range;

/// An edit of a source: the bytes in a range are replaced by a text.
#[derive(Clone, Debug, Eq, PartialEq)]
pub struct Edit<'e> {
    /// The byte range of the source that is replaced. It is empty where text is only inserted.
    pub span: Range<usize>,
    /// The text that replaces it. It is empty where text is only removed.
    pub text: &'e str,
}

/// A literal with edits applied.
#[derive(Debug, Eq, PartialEq, Clone)]
pub struct FixedLiteral {
    /// The literal, as it is to be in the source.
    pub snippet: String,
    /// The text that it stands for, with the newline that was appended to the input, if one was.
    pub text: String,
}

/// Returns whether a suggestion is made in a mode. The compiler makes none for a template of
/// assembly, and where no placeholder may have a specification, none leads to one.
pub fn is_offered(mode: ParseMode, suggestion: &Suggestion) -> bool {
    match mode {
        ParseMode::Format | ParseMode::Diagnostic => true,
        ParseMode::InlineAsm => false,
        ParseMode::DiagnosticNamed => matches!(suggestion, Suggestion::RemoveRawIdent(_)),
    }
}

/// Returns the edit of a suggestion, or `None` if it has none or needs the arguments of the call.
#[inline(never)]
fn edit_of(suggestion: &Suggestion) -> Option<Edit<'_>> {
    match suggestion {
        Suggestion::RemoveRawIdent(span) => Some(Edit {
            span: span.start..span.end,
            text: "",
        }),
        Suggestion::ReorderFormatParameter(span, text) => Some(Edit {
            span: span.start..span.end,
            text: text.as_str(),
        }),
        Suggestion::AddMissingColon(span) => Some(Edit {
            span: span.start..span.start,
            text: ":",
        }),
        Suggestion::None | Suggestion::UsePositional | Suggestion::UseRustDebugPrintingMacro => {
            None
        }
    }
}

/// Returns the edit of a suggestion that is made in a mode, or `None` if there is none or it needs
/// the arguments of the call.
#[inline]
fn offered_edit(mode: ParseMode, suggestion: &Suggestion) -> Option<Edit<'_>> {
    if !is_offered(mode, suggestion) {
        return None;
    }
    edit_of(suggestion)
}

/// Returns the edits of these errors of a text of this mode, in the order of the source, each
/// after the end of the one before it.
///
/// As from the compiler, there are none in a template of assembly; and where no placeholder may
/// have a specification, none leads to one.
///
/// The errors are in the order of a parser, in which each error that has an edit comes before those
/// of earlier places. An edit that does not start after the end of the one before it is left out.
#[inline(never)]
pub fn edits<'e>(mode: ParseMode, errors: &'e [ParseError]) -> Result<Vec<Edit<'e>>, AllocError> {
    let mut edits = Vec::new();
    let mut end = 0;
    for error in errors.iter().rev() {
        if let Some(edit) = offered_edit(mode, &error.suggestion) {
            if end < edit.span.start && edit.span.start <= edit.span.end {
                end = edit.span.end;
                edits.push(edit);
            }
        }
    }
    Ok(edits)
}

/// Returns the first n bytes, or all if there are fewer.
#[inline]
fn front(bytes: &[u8], n: usize) -> &[u8] {
    bytes.get(..n).unwrap_or(bytes)
}

/// Returns the bytes after the first n, or none if there are no more.
#[inline]
fn rest_after(bytes: &[u8], n: usize) -> &[u8] {
    bytes.get(n..).unwrap_or(&[])
}

/// A text in the middle of its edits.
struct EditProgress<'t> {
    /// The part of the text with its edits that is written.
    bytes: Vec<u8>,
    /// The rest of the text.
    rest: &'t [u8],
    /// The byte offset at which that starts.
    start: usize,
    /// Where the last edit ends, or 0 if there is none.
    end: usize,
}

/// Makes the edit of a suggestion in a mode, if it has one that starts after the end of the last
/// one.
#[inline(never)]
fn make(
    progress: &mut EditProgress<'_>,
    mode: ParseMode,
    suggestion: &Suggestion,
) -> Result<(), AllocError> {
    let Some(edit) = offered_edit(mode, suggestion) else {
        return Ok(());
    };
    if progress.end < edit.span.start && edit.span.start <= edit.span.end {
        let source = front(
            progress.rest,
            edit.span.start.saturating_sub(progress.start),
        );
        progress.bytes.extend_from_slice(source);
        progress.bytes.extend_from_slice(edit.text.as_bytes());
        progress.rest = rest_after(progress.rest, edit.span.end.saturating_sub(progress.start));
        progress.start = edit.span.end;
        progress.end = edit.span.end;
    }
    Ok(())
}

/// Makes the edits of faults in a mode, the first one first.
fn make_each(
    progress: &mut EditProgress<'_>,
    mode: ParseMode,
    faults: &[Fault<'_>],
) -> Result<(), AllocError> {
    for fault in faults {
        let suggestion = fault.suggestion()?;
        make(progress, mode, &suggestion)?;
    }
    Ok(())
}

/// Makes a call of a parser, and the edits of its faults in a mode. `faults` is empty before and
/// after the call.
fn make_next<'a>(
    progress: &mut EditProgress<'_>,
    mode: ParseMode,
    parser: &mut Parser<'a>,
    argument: &mut Argument<'a>,
    faults: &mut Vec<Fault<'a>>,
) -> Result<(), AllocError> {
    parser.next_with_faults(argument, faults)?;
    make_each(progress, mode, faults.as_slice())?;
    faults.clear();
    Ok(())
}

/// A text with the edits of all errors.
struct AllEdits {
    /// The bytes of the text.
    bytes: Vec<u8>,
    /// Whether there is an edit.
    has_edits: bool,
}

/// Returns a text with the edits, in a mode, of all errors that the calls of a parser find, which
/// has none yet. The text starts at the byte offset `at`.
#[inline(never)]
fn edit_all(
    mode: ParseMode,
    parser: &mut Parser<'_>,
    text: &str,
    at: usize,
) -> Result<AllEdits, AllocError> {
    let mut argument = Argument::default();
    let mut faults = Vec::new();
    let mut progress = EditProgress {
        bytes: Vec::new(),
        rest: text.as_bytes(),
        start: at,
        end: 0,
    };
    while !parser.is_at_end() {
        make_next(&mut progress, mode, parser, &mut argument, &mut faults)?;
    }
    let rest = progress.rest;
    progress.bytes.extend_from_slice(rest);
    Ok(AllEdits {
        bytes: progress.bytes,
        has_edits: progress.end > 0,
    })
}

/// Returns bytes as a text, or `None` if they are not UTF-8.
#[inline]
fn text_of(bytes: Vec<u8>) -> Option<String> {
    String::from_utf8(bytes).ok()
}

/// Returns the literal of an input with the edits of its errors, or `None` if it has none or is
/// then not UTF-8.
#[inline(never)]
fn edited_literal(
    input: &str,
    style: Option<usize>,
    snippet: &str,
    appended_newline: bool,
    mode: ParseMode,
) -> Result<Option<String>, AllocError> {
    let snippet_copy = String::from(snippet);
    let mut parser = Parser::new(input, style, Some(snippet_copy), appended_newline, mode)?;
    let AllEdits { bytes, has_edits } = edit_all(mode, &mut parser, snippet, 0)?;
    if !has_edits {
        return Ok(None);
    }
    Ok(text_of(bytes))
}

/// Returns an input with the edits of its errors, or `None` if it is then not UTF-8.
#[inline(never)]
fn edited_text(input: &str, mode: ParseMode) -> Result<Option<String>, AllocError> {
    let mut parser = Parser::new(input, None, None, false, mode)?;
    let AllEdits { bytes, .. } = edit_all(mode, &mut parser, input, 1)?;
    Ok(text_of(bytes))
}

/// Returns the source literal of an input with the edits of all errors up to the end of the input,
/// and the text with the same edits, which the literal then stands for.
///
/// Returns `None` if the snippet is not the source literal of the input, so that no edit is made in
/// a foreign literal, if there is no edit, or if the literal with its edits would not stand for the
/// text with its own.
#[inline(never)]
pub fn round(
    input: &str,
    style: Option<usize>,
    snippet: &str,
    appended_newline: bool,
    mode: ParseMode,
) -> Result<Option<FixedLiteral>, AllocError> {
    if !is_source_literal(input, style, snippet, appended_newline) {
        return Ok(None);
    }
    let Some(snippet) = edited_literal(input, style, snippet, appended_newline, mode)? else {
        return Ok(None);
    };
    let Some(text) = edited_text(input, mode)? else {
        return Ok(None);
    };
    if is_source_literal(&text, style, &snippet, appended_newline) {
        Ok(Some(FixedLiteral { snippet, text }))
    } else {
        Ok(None)
    }
}
