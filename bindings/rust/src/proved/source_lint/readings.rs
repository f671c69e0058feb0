//! The reading of a call, and its findings.

// Extracted from crates/source_lint/src/readings.rt by tools/extract: not to be edited.
// That source has the contracts, and is proved. That this text means the same is only tested.

use crate::proved::asm_lint::{dropped_crs, read_asm, read_literal, reading_of, Site};
use crate::proved::call_faults::{call_faults, FormatArgument, FormatString};
use crate::proved::call_forms::{form_here, have_joined, have_variables, lacks_operand, tokens_of};
use crate::proved::format_calls::{
    arguments, extent_of, format_string, token_at, Argument, Call, Part, Rule,
};
use crate::proved::rust_trees::Token;
use crate::proved::source_lint::findings::put_findings;
use crate::proved::source_lint::form_words::put_form;
use crate::proved::source_lint::givens::givens;
use crate::proved::source_lint::macros::{name_at, newline_of, other_macro, File};
use crate::proved::source_report::{CallReading, Finding};
use crate::shim::alloc::AllocError;
use crate::shim::prelude::*;

/// Returns arguments as placeholders refer to them, or none if their number is not known.
fn counted_givens<'a>(
    tokens: &[Token<'a>],
    arguments: &[Argument],
    is_counted: bool,
) -> Result<Vec<FormatArgument<'a>>, AllocError> {
    if !is_counted {
        return Ok(Vec::new());
    }
    givens(tokens, arguments)
}

/// Checks a call with this format string and these arguments, and adds its findings.
fn check_string<'c>(
    findings: &mut Vec<Finding>,
    site: Site<'_, '_>,
    string: FormatString<'c>,
    arguments: &'c [FormatArgument<'c>],
    is_counted: bool,
) -> Result<(), AllocError> {
    let report = call_faults(string, arguments)?;
    put_findings(findings, site, &report, is_counted)?;
    Ok(())
}

/// Reads the format string of a call, which is the literal of the site, with the arguments after
/// it, and adds the findings.
fn read_string(
    findings: &mut Vec<Finding>,
    site: Site<'_, '_>,
    appended_newline: bool,
    captures_variables: bool,
    is_counted: bool,
) -> Result<CallReading, AllocError> {
    let Some(literal) = read_literal(site.literal.text, appended_newline)? else {
        return Ok(CallReading::Malformed);
    };
    let arguments = counted_givens(site.tokens, site.arguments, is_counted)?;
    let text = literal.text.as_str();
    let snippet = literal.snippet.as_str();
    let list = arguments.as_slice();
    let string = FormatString {
        text,
        style: literal.style,
        snippet: Some(snippet),
        appended_newline,
        captures_variables,
    };
    check_string(findings, site, string, list, is_counted)?;
    Ok(reading_of(is_counted))
}

/// Returns whether the format string of a macro captures variables. `unreachable!` of the standard
/// library puts it into another text before the edition 2021, where it captures none.
pub fn captures_variables(rule: Rule, name: &[u8], is_from_2021: bool) -> bool {
    match rule {
        Rule::IndexByEdition(_) => is_from_2021 || name != b"unreachable".as_slice(),
        Rule::Index(_) | Rule::FirstLiteral | Rule::Templates => true,
    }
}

/// Returns the argument of an index, or `None` if there is none.
pub fn argument_at(arguments: &[Argument], index: usize) -> Option<Argument> {
    if index < arguments.len() {
        Some(arguments[index])
    } else {
        None
    }
}

/// Returns whether `;` ends the arguments of a macro with this rule: key-values follow it in those
/// of slog.
#[inline]
pub fn ends_early(rule: Rule) -> bool {
    matches!(rule, Rule::FirstLiteral)
}

/// Returns the arguments that start before a token, of which the last ends there at the latest.
pub fn arguments_before(arguments: &[Argument], end: usize) -> Result<Vec<Argument>, AllocError> {
    let mut list = Vec::new();
    for argument in arguments {
        if argument.start >= end {
            return Ok(list);
        }
        list.push(Argument {
            start: argument.start,
            end: argument.end.min(end),
            is_named: argument.is_named,
        });
    }
    Ok(list)
}

/// Reads a call with this literal as its format string and these arguments after it, and adds its
/// findings.
fn read_with(
    findings: &mut Vec<Finding>,
    file: File<'_, '_>,
    part: &Part<'_>,
    call: &Call,
    literal: Token<'_>,
    arguments: &[Argument],
    is_counted: bool,
) -> Result<CallReading, AllocError> {
    let tokens = part.tokens();
    let crs = dropped_crs(literal.text)?;
    let site = Site {
        text: file.text,
        tokens,
        literal,
        crs: &crs,
        arguments,
        name: call.name,
        close: call.close,
    };
    let name = name_at(tokens, call.name);
    let appended_newline = newline_of(file, name);
    let captures_variables = captures_variables(call.rule, name, file.is_from_2021);
    read_string(
        findings,
        site,
        appended_newline,
        captures_variables,
        is_counted,
    )
}

/// Reads a call whose format string begins the argument of this index, and adds its findings.
fn read_at(
    findings: &mut Vec<Finding>,
    file: File<'_, '_>,
    part: &Part<'_>,
    call: &Call,
    arguments: &[Argument],
    index: usize,
) -> Result<CallReading, AllocError> {
    let Some(string) = argument_at(arguments, index) else {
        return Ok(CallReading::Malformed);
    };
    let Some(literal) = token_at(part.tokens(), string.start) else {
        return Ok(CallReading::Malformed);
    };
    let extent = extent_of(
        part.source(),
        ends_early(call.rule),
        call.name + 2,
        string.start + 1,
        call.close,
    );
    let is_counted = extent.is_counted;
    let others = &arguments[index + 1..];
    if extent.end == call.close {
        return read_with(findings, file, part, call, literal, others, is_counted);
    }
    let kept_arguments = arguments_before(others, extent.end)?;
    read_with(
        findings,
        file,
        part,
        call,
        literal,
        &kept_arguments,
        is_counted,
    )
}

/// Reads a call whose format string is the argument of this index, or whose templates begin with
/// it, and adds its findings.
fn read_one<'a>(
    findings: &mut Vec<Finding>,
    file: File<'_, 'a>,
    part: &Part<'a>,
    call: &Call,
    arguments: &[Argument],
    index: usize,
) -> Result<CallReading, AllocError> {
    match call.rule {
        Rule::Templates => read_asm(findings, file.text, part, call, arguments),
        Rule::Index(_) | Rule::IndexByEdition(_) | Rule::FirstLiteral => {
            read_at(findings, file, part, call, arguments, index)
        }
    }
}

/// Returns whether no token stands where an argument should.
#[inline]
fn is_empty(argument: &Argument) -> bool {
    argument.start == argument.end
}

/// Returns whether no token stands where one of these arguments should.
#[inline]
fn has_empty(arguments: &[Argument]) -> bool {
    for argument in arguments {
        if is_empty(argument) {
            return true;
        }
    }
    false
}

/// Returns whether the arguments of a macro with this rule are expressions, up to the last one:
/// those of tracing and of slog have forms of their own.
fn are_expressions(rule: Rule) -> bool {
    matches!(rule, Rule::Index(_) | Rule::IndexByEdition(_))
}

/// Returns whether an operator lacks an operand in one of these arguments.
fn lack_operand(part: &Part<'_>, arguments: &[Argument]) -> bool {
    for argument in arguments {
        if lacks_operand(tokens_of(part.tokens(), argument)) {
            return true;
        }
    }
    false
}

/// Returns whether an operator lacks an operand in one of the arguments of a macro with this rule,
/// and no variable of a macro stands in them.
fn lack_expression(part: &Part<'_>, rule: Rule, arguments: &[Argument]) -> bool {
    are_expressions(rule) && lack_operand(part, arguments) && !have_variables(part, arguments)
}

/// Returns whether the arguments of a macro with this rule are expressions: operands are none.
#[inline]
fn has_expressions(rule: Rule) -> bool {
    !matches!(rule, Rule::Templates)
}

/// Returns the index of the argument that is the format string of a call, or the reading of the
/// call if none is read.
pub fn index_or(
    file: File<'_, '_>,
    part: &Part<'_>,
    call: &Call,
    arguments: &[Argument],
) -> Result<usize, CallReading> {
    if has_empty(arguments) || lack_expression(part, call.rule, arguments) {
        return Err(CallReading::NoExpression);
    }
    if has_expressions(call.rule) && have_joined(part, arguments) {
        return Err(CallReading::NoComma);
    }
    match format_string(part.source(), call.rule, arguments, file.is_from_2021) {
        Ok(index) => Ok(index),
        Err(reason) => Err(CallReading::Unread(reason)),
    }
}

/// Reads a call, and adds its findings.
pub fn read_call<'a>(
    findings: &mut Vec<Finding>,
    file: File<'_, 'a>,
    part: &Part<'a>,
    call: &Call,
) -> Result<CallReading, AllocError> {
    let tokens = part.tokens();
    if let Some(reading) = other_macro(file, tokens, call) {
        return Ok(reading);
    }
    let name = name_at(tokens, call.name);
    let Some(arguments) = arguments(part.source(), call.close)? else {
        return Ok(CallReading::Whole);
    };
    let list = arguments.as_slice();
    match index_or(file, part, call, list) {
        Ok(index) => read_one(findings, file, part, call, list, index),
        Err(reading) => {
            let form = form_here(part, name, call.rule, file.is_from_2021, list, call.close);
            put_form(findings, file.text, tokens, call, list, form)?;
            Ok(reading)
        }
    }
}
