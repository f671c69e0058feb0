//! The errors that faults become, with their texts: one match arm for each fault.
//!
//! Texts are put together by `push_str`, in a string that is made as long as they are: `format!`
//! takes 100 to 750 instructions more for each.

// Extracted from crates/rustc_parse_format/src/messages.rt by tools/extract: not to be edited.
// That source has the contracts, and is proved. That this text means the same is only tested.

use crate::proved::rustc_parse_format::escapes::put_written;
use crate::proved::rustc_parse_format::faults::Fault;
use crate::proved::rustc_parse_format::types::{ParseError, Suggestion};
use crate::shim::alloc::AllocError;
use crate::shim::prelude::*;
use core::ops::Range;

/// Returns the description of a missing closing brace, from the character found in its place, or
/// `None` at the end of the input.
#[inline]
fn expected_brace(character: Option<char>) -> Result<String, AllocError> {
    let Some(c) = character else {
        return String::made_from("expected `}` but string was terminated");
    };
    // 21 bytes, at most 6 for the character, and the closing quote
    let mut text = String::with_capacity(28);
    text.push_str("expected `}`, found `");
    put_written(&mut text, c)?;
    text.try_push('`')?;
    Ok(text)
}

/// Returns the description of a number above 65535, from its digits.
#[inline]
fn out_of_range(digits: &str) -> Result<String, AllocError> {
    let mut text = String::with_capacity(70 + digits.len());
    text.push_str("integer `");
    text.push_str(digits);
    text.push_str("` does not fit into the type `u16` whose range is `0..=65535`");
    Ok(text)
}

/// Returns the flag with the type `?` after it.
#[inline]
fn flagged_type(flag: char) -> Result<String, AllocError> {
    let mut text = String::with_capacity(1 + flag.len_utf8());
    text.try_push(flag)?;
    text.try_push('?')?;
    Ok(text)
}

/// Returns the note on how to write the type `?` for the argument `word`.
#[inline]
fn debug_after(word: &str) -> Result<String, AllocError> {
    let mut text = String::with_capacity(37 + word.len());
    text.push_str("`?` comes after `:`, try `");
    text.push_str(word);
    text.push_str(":?` instead");
    Ok(text)
}

/// Returns the label on where an alignment belongs.
#[inline]
fn align_after(sign: char) -> Result<String, AllocError> {
    let mut text = String::with_capacity(30 + sign.len_utf8());
    text.push_str("expected `");
    text.try_push(sign)?;
    text.push_str("` to occur after `:`");
    Ok(text)
}

/// Sets the description, the label and the span of an error.
#[inline(always)]
fn set_texts(
    parse_error: &mut ParseError,
    description: String,
    label: &str,
    span: &Range<usize>,
) -> Result<(), AllocError> {
    parse_error.description = description;
    parse_error.label = String::from(label);
    parse_error.span = span.start..span.end;
    Ok(())
}

/// Sets the description, the note, the label and the span of an error.
#[inline(always)]
fn set_texts_with_note(
    parse_error: &mut ParseError,
    description: &str,
    note: &str,
    label: &str,
    span: &Range<usize>,
) -> Result<(), AllocError> {
    let description = String::from(description);
    parse_error.note = Some(String::from(note));
    set_texts(parse_error, description, label, span)
}

/// Sets the description, the note, the span and the secondary label of an error whose label is that
/// of a missing closing brace.
#[inline]
fn set_brace_error(
    parse_error: &mut ParseError,
    description: String,
    note: &str,
    span: &Range<usize>,
    second: (&str, &Range<usize>),
) -> Result<(), AllocError> {
    parse_error.note = Some(String::from(note));
    parse_error.secondary_label = Some((String::from(second.0), second.1.start..second.1.end));
    set_texts(parse_error, description, "expected `}`", span)
}

/// Sets the texts and the span of the error of a field access.
#[inline]
fn set_field_error(
    parse_error: &mut ParseError,
    description: &str,
    span: &Range<usize>,
) -> Result<(), AllocError> {
    set_texts_with_note(
        parse_error,
        description,
        "consider moving this expression to a local variable and then using the local here instead",
        "not supported",
        span,
    )
}

impl Fault<'_> {
    /// Returns the suggestion of the fault's error, and makes none of the error's other texts.
    #[inline(always)]
    pub(crate) fn suggestion(&self) -> Result<Suggestion, AllocError> {
        let suggestion = match self {
            Fault::RawIdentifier(_, prefix) => Suggestion::RemoveRawIdent(prefix.start..prefix.end),
            Fault::LateFlag(flag, _, both) => {
                Suggestion::ReorderFormatParameter(both.start..both.end, flagged_type(*flag)?)
            }
            Fault::MissingColon(span) => Suggestion::AddMissingColon(span.start..span.end),
            Fault::DebugPrint(..) => Suggestion::UseRustDebugPrintingMacro,
            Fault::FieldAccess(_) | Fault::TupleIndex(_) => Suggestion::UsePositional,
            _ => Suggestion::None,
        };
        Ok(suggestion)
    }
}

/// Sets an error, which is still empty, to that of a fault.
#[inline(never)]
pub fn set_error(parse_error: &mut ParseError, fault: &Fault<'_>) -> Result<(), AllocError> {
    match fault {
        Fault::UnmatchedBrace(span) => set_texts_with_note(
            parse_error,
            "unmatched `}` found",
            "if you intended to print `}`, you can escape it using `}}`",
            "unmatched `}`",
            span,
        ),
        Fault::MissingBrace(character, span, opening) => set_brace_error(
            parse_error,
            expected_brace(*character)?,
            "if you intended to print `{`, you can escape it using `{{`",
            span,
            ("because of this opening brace", opening),
        ),
        Fault::FillBrace(character, span, fill) => set_brace_error(
            parse_error,
            expected_brace(*character)?,
            "the character `}` is interpreted as a fill character because of the `:` that precedes it",
            span,
            (
                "this is not interpreted as a formatting closing brace",
                fill,
            ),
        ),
        Fault::Underscore(span) => set_texts_with_note(
            parse_error,
            "invalid argument name `_`",
            "argument name cannot be a single underscore",
            "invalid argument name",
            span,
        ),
        Fault::TooLarge(digits, span) => set_texts(
            parse_error,
            out_of_range(digits)?,
            "integer out of range for `u16`",
            span,
        ),
        Fault::Unnamed(span) => set_texts_with_note(
            parse_error,
            "expected a named argument",
            "only named arguments are allowed here",
            "expected a name",
            span,
        ),
        Fault::TextAfterColon(span) => set_texts(
            parse_error,
            String::from("format specifiers are not allowed"),
            "remove this text",
            span,
        ),
        Fault::RawIdentifier(span, _) => {
            parse_error.suggestion = fault.suggestion()?;
            set_texts_with_note(
                parse_error,
                "raw identifiers are not supported",
                "identifiers in format strings can be keywords and don't need to be prefixed with `r#`",
                "raw identifier used here",
                span,
            )
        }
        Fault::LateFlag(flag, span, _) => {
            parse_error.suggestion = fault.suggestion()?;
            let description = expected_brace(Some(*flag))?;
            set_texts(parse_error, description, "expected `'}'`", span)
        }
        Fault::MissingColon(span) => {
            parse_error.suggestion = fault.suggestion()?;
            set_texts_with_note(
                parse_error,
                "expected `}`, found `?`",
                "to print `{`, you can escape it using `{{`",
                "expected `:` before `?` to format with `Debug`",
                span,
            )
        }
        Fault::LateDebug(word, span) => {
            parse_error.note = Some(debug_after(word)?);
            set_texts(
                parse_error,
                String::from("expected format parameter to occur after `:`"),
                "expected `?` to occur after `:`",
                span,
            )
        }
        Fault::LateAlign(sign, span) => {
            parse_error.label = align_after(*sign)?;
            parse_error.span = span.start..span.end;
            parse_error.description = String::from(
                "expected alignment specifier after `:` in format string; example: `{:>?}`",
            );
            Ok(())
        }
        Fault::Grouping(span, opening) => set_brace_error(
            parse_error,
            String::from(
                "python's numeric grouping `,` is not supported in rust format strings",
            ),
            "to print `{`, you can escape it using `{{`",
            span,
            ("because of this opening brace", opening),
        ),
        Fault::DebugPrint(span, opening) => {
            parse_error.suggestion = fault.suggestion()?;
            set_brace_error(
                parse_error,
                String::from(
                    "python's f-string debug `=` is not supported in rust, use `dbg(x)` instead",
                ),
                "to print `{`, you can escape it using `{{`",
                span,
                ("because of this opening brace", opening),
            )
        }
        Fault::LateSign(span) => set_texts_with_note(
            parse_error,
            "the `+` sign flag must appear after `:` in a format string",
            "`+` comes after `:`, try `{:+}` instead of `{+}`",
            "expected `:` before `+` sign flag",
            span,
        ),
        Fault::FieldAccess(span) => {
            parse_error.suggestion = fault.suggestion()?;
            set_field_error(parse_error, "field access isn't supported", span)
        }
        Fault::TupleIndex(span) => {
            parse_error.suggestion = fault.suggestion()?;
            set_field_error(
                parse_error,
                "tuple index access isn't supported",
                span,
            )
        }
    }
}
