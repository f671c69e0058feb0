//! The findings of calls whose arguments are wrong, in rustc's words.

// Extracted from crates/source_lint/src/form_words.rt by tools/extract: not to be edited.
// That source has the contracts, and is proved. That this text means the same is only tested.

use crate::proved::asm_lint::{call_range, range_in, tokens_range};
use crate::proved::call_forms::{kind_word, ExpectedTokens, Form, Operator};
use crate::proved::format_calls::{Argument, Call};
use crate::proved::rust_trees::Token;
use crate::proved::source_report::{Edit, Finding, Help, Label};
use crate::shim::alloc::AllocError;
use crate::shim::prelude::*;
use core::ops::Range;

/// Returns the id of what is wrong, in kebab case.
fn form_id(form: Form<'_>) -> &'static str {
    match form {
        Form::NoString => "missing-format-string",
        Form::NoLiteral { .. } => "no-string-literal",
        Form::NoComma { .. } => "missing-comma",
        Form::NoOperand(_) | Form::NoExpression { .. } => "missing-expression",
    }
}

/// Adds a token that rustc found, in its words.
fn put_operator(out: &mut String, operator: Operator<'_>) -> Result<(), AllocError> {
    out.push_str(kind_word(operator.first.text));
    out.push_str("`");
    out.push_str(operator.first.text);
    out.push_str(operator.second);
    out.push_str(operator.third);
    out.push_str("`");
    Ok(())
}

/// Returns the tokens that rustc expects, in its words, up to the one that it found.
fn expected_words(expected: ExpectedTokens) -> &'static str {
    match expected {
        ExpectedTokens::Comma => "expected `,`, found ",
        ExpectedTokens::Path => {
            "expected one of `!`, `,`, `.`, `::`, `?`, `{`, or an operator, found "
        }
        ExpectedTokens::Field => "expected one of `(`, `,`, `.`, `::`, `?`, or an operator, found ",
        ExpectedTokens::Value => "expected one of `,`, `.`, `?`, or an operator, found ",
    }
}

/// Returns the title where an expression is missing, up to what rustc found.
#[inline]
fn missing_words() -> &'static str {
    "expected expression, found "
}

/// Returns the title where an argument ends without an expression, at the end of the call or at a
/// comma.
#[inline]
fn end_words(is_last: bool) -> &'static str {
    if is_last {
        "expected expression, found end of macro arguments"
    } else {
        "expected expression, found `,`"
    }
}

/// Adds the title.
fn put_title(out: &mut String, form: Form<'_>) -> Result<(), AllocError> {
    match form {
        Form::NoString => out.push_str("requires at least a format string argument"),
        Form::NoLiteral { .. } => out.push_str("format argument must be a string literal"),
        Form::NoComma { expected, operator } => {
            out.push_str(expected_words(expected));
            put_operator(out, operator)?;
        }
        Form::NoOperand(operator) => {
            out.push_str(missing_words());
            put_operator(out, operator)?;
        }
        Form::NoExpression { is_last, .. } => out.push_str(end_words(is_last)),
    }
    Ok(())
}

/// Returns the label of a token where rustc expects others.
fn expected_label(expected: ExpectedTokens) -> &'static str {
    match expected {
        ExpectedTokens::Comma => "expected `,`",
        ExpectedTokens::Path => "expected one of 7 possible tokens",
        ExpectedTokens::Field => "expected one of `(`, `,`, `.`, `::`, `?`, or an operator",
        ExpectedTokens::Value => "expected one of `,`, `.`, `?`, or an operator",
    }
}

/// Returns the text of the primary label.
fn form_label(form: Form<'_>) -> &'static str {
    match form {
        Form::NoString | Form::NoLiteral { .. } => "",
        Form::NoComma { expected, .. } => expected_label(expected),
        Form::NoOperand(_) | Form::NoExpression { .. } => "expected expression",
    }
}

/// Returns the bytes of the argument with this index, or none if there is no such argument.
fn argument_range(tokens: &[Token<'_>], arguments: &[Argument], index: usize) -> Range<usize> {
    match arguments.get(index) {
        Some(argument) => tokens_range(tokens, argument.start, argument.end),
        None => 0..0,
    }
}

/// Returns the bytes of the token after the argument with this index, or the end of that argument
/// if it is the last one. Returns no bytes if there is no such argument.
fn range_after(
    tokens: &[Token<'_>],
    arguments: &[Argument],
    index: usize,
    is_last: bool,
) -> Range<usize> {
    match arguments.get(index) {
        Some(argument) => {
            if is_last {
                let end = tokens_range(tokens, argument.start, argument.end).end;
                end..end
            } else {
                tokens_range(tokens, argument.end, argument.end.saturating_add(1))
            }
        }
        None => 0..0,
    }
}

/// Returns the bytes of a token that rustc found.
fn found_range(operator: Operator<'_>) -> Range<usize> {
    let first = operator
        .first
        .start
        .saturating_add(operator.first.text.len());
    let second = first.saturating_add(operator.second.len());
    operator.first.start..second.saturating_add(operator.third.len())
}

/// Returns the bytes that are wrong.
fn form_range(
    text: &str,
    tokens: &[Token<'_>],
    call: &Call,
    arguments: &[Argument],
    form: Form<'_>,
) -> Range<usize> {
    let range = match form {
        Form::NoString => call_range(text, tokens, call.name, call.close),
        Form::NoLiteral { other_count, .. } => {
            let index = arguments
                .len()
                .saturating_sub(other_count)
                .saturating_sub(1);
            argument_range(tokens, arguments, index)
        }
        Form::NoComma { operator, .. } => found_range(operator),
        Form::NoOperand(operator) => found_range(operator),
        Form::NoExpression { index, is_last } => range_after(tokens, arguments, index, is_last),
    };
    range_in(text, range.start, range.end)
}

/// Returns what is said of the `b` of a byte string literal.
#[inline]
fn bytes_label() -> &'static str {
    "help: consider removing the leading `b`"
}

/// Returns whether a byte string literal stands where the format string should.
fn has_bytes(form: Form<'_>) -> bool {
    match form {
        Form::NoLiteral { is_bytes, .. } => is_bytes,
        _ => false,
    }
}

/// Returns how many arguments stand after the expression in whose place a literal is missing, or
/// `None` if none is.
fn lacks_literal(form: Form<'_>) -> Option<usize> {
    match form {
        Form::NoLiteral {
            other_count,
            is_bytes,
        } => {
            if is_bytes {
                None
            } else {
                Some(other_count)
            }
        }
        _ => None,
    }
}

/// Adds a label.
fn push_label(
    labels: &mut Vec<Label>,
    range: Range<usize>,
    is_primary: bool,
    text: &str,
) -> Result<(), AllocError> {
    let text = String::from(text);
    labels.push(Label {
        range,
        is_primary,
        text,
    });
    Ok(())
}

/// Returns the labels of what is wrong with these bytes.
fn form_labels(text: &str, span: &Range<usize>, form: Form<'_>) -> Result<Vec<Label>, AllocError> {
    let mut labels = Vec::new();
    push_label(&mut labels, span.start..span.end, true, form_label(form))?;
    if has_bytes(form) {
        let letter = range_in(text, span.start, span.start.saturating_add(1));
        push_label(&mut labels, letter, false, bytes_label())?;
    }
    Ok(labels)
}

/// Adds this many placeholders, each after a space.
fn put_placeholders(out: &mut String, count: usize) -> Result<(), AllocError> {
    let mut countdown = count;
    while countdown > 0 {
        out.push_str(" {}");
        countdown -= 1;
    }
    Ok(())
}

/// Returns the format string for an argument and so many others, with the comma after it.
fn literal_for(other_count: usize) -> Result<String, AllocError> {
    let mut text = String::from("\"{}");
    put_placeholders(&mut text, other_count)?;
    text.push_str("\", ");
    Ok(text)
}

/// Returns the help, or `None` if there is none that is no label.
fn form_help(text: &str, span: &Range<usize>, form: Form<'_>) -> Result<Option<Help>, AllocError> {
    let Some(other_count) = lacks_literal(form) else {
        return Ok(None);
    };
    let message = "you might be missing a string literal to format with";
    let words = String::from(message);
    let literal = literal_for(other_count)?;
    let mut edits = Vec::new();
    edits.push(Edit {
        range: range_in(text, span.start, span.start),
        text: literal,
    });
    Ok(Some(Help { text: words, edits }))
}

/// Returns the finding of what is wrong with the arguments of a call.
fn form_finding(text: &str, span: Range<usize>, form: Form<'_>) -> Result<Finding, AllocError> {
    let mut title = String::new();
    put_title(&mut title, form)?;
    let labels = form_labels(text, &span, form)?;
    let help = form_help(text, &span, form)?;
    Ok(Finding {
        is_warning: false,
        id: form_id(form),
        title,
        span,
        labels,
        notes: Vec::new(),
        help,
    })
}

/// Adds the finding of what is wrong with the arguments of a call, if anything is.
pub fn put_form(
    findings: &mut Vec<Finding>,
    text: &str,
    tokens: &[Token<'_>],
    call: &Call,
    arguments: &[Argument],
    form: Option<Form<'_>>,
) -> Result<(), AllocError> {
    if let Some(form) = form {
        let span = form_range(text, tokens, call, arguments, form);
        findings.push(form_finding(text, span, form)?);
    }
    Ok(())
}
