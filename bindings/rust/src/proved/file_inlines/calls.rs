//! What inlining makes of a call.

// Extracted from crates/file_inlines/src/calls.rt by tools/extract: not to be edited.
// That source has the contracts, and is proved. That this text means the same is only tested.

use crate::proved::asm_lint::{appends_newline, read_literal};
use crate::proved::call_faults::FormatString;
use crate::proved::file_inlines::edits::edits_of;
use crate::proved::file_inlines::sources::with_sources;
use crate::proved::file_inlines::terms::{is_inlined, Terms};
use crate::proved::format_calls::{
    arguments, extent_of, is_standard, token_at, Argument, Call, Part, Rule,
};
use crate::proved::inlined_arguments::{inline_arguments, Call as FormatCall, Edit, Obstacle};
use crate::proved::rust_trees::Token;
use crate::proved::source_lint::{
    argument_at, arguments_before, captures_variables, ends_early, index_or, name_at, other_macro,
    File,
};
use crate::proved::source_report::CallReading;
use crate::shim::alloc::AllocError;
use crate::shim::prelude::*;

/// What inlining makes of a call.
#[non_exhaustive]
#[derive(Clone, Copy, Debug, Eq, PartialEq)]
pub enum CallInlining {
    /// Its format string has the variables that were arguments.
    Inlined,
    /// It is left as it is, for this reason.
    Unchanged(Obstacle),
    /// It is left as it is, since its format string is not read for this reason.
    Unread(CallReading),
    /// It is left as it is, since it is one of assembly, whose templates capture no variables.
    Assembly,
    /// It is left as it is, although it could be inlined, since its macro may be another one than
    /// that of its row.
    Uncertain,
}

/// A call with what inlining makes of it.
pub(crate) struct InlinedCall {
    /// What becomes of it.
    pub inlining: CallInlining,
    /// The edits that inline it, or none if it is left as it is.
    pub edits: Vec<Edit>,
}

/// Calls with what inlining makes of them.
pub(crate) struct InlinedCalls {
    /// What becomes of each.
    pub inlinings: Vec<CallInlining>,
    /// The edits of all, one call after the other.
    pub edits: Vec<Edit>,
}

/// Returns whether the string of a macro with this rule and this name is known to be a format
/// string if no argument follows it.
fn is_format_alone(rule: Rule, name: &[u8], is_from_2021: bool) -> bool {
    match rule {
        Rule::Index(_) => is_standard(name),
        Rule::IndexByEdition(_) => is_from_2021,
        Rule::FirstLiteral => true,
        Rule::Templates => false,
    }
}

/// Returns whether a `const fn` may call a macro with this rule, with one argument and the string
/// `{}`.
#[inline]
fn has_const_form(rule: Rule) -> bool {
    matches!(rule, Rule::IndexByEdition(_))
}

/// A call whose format string was found.
#[derive(Clone, Copy)]
struct LiteralSite<'s, 'a> {
    /// The text of the file.
    text: &'a str,
    /// The tokens of the file.
    tokens: &'s [Token<'a>],
    /// The literal of the format string.
    literal: Token<'a>,
    /// The arguments after it.
    arguments: &'s [Argument],
}

/// Returns what inlining makes of this call, which `site` is in its file.
#[inline(never)]
fn inline_format_call(
    site: LiteralSite<'_, '_>,
    call: FormatCall<'_>,
    allows_mixed: bool,
) -> Result<InlinedCall, AllocError> {
    let new_call = match inline_arguments(call, allows_mixed)? {
        Ok(new_call) => new_call,
        Err(reason) => return Ok(unchanged_call(CallInlining::Unchanged(reason))),
    };
    let edits = edits_of(
        site.text,
        site.tokens,
        site.literal,
        site.arguments,
        &new_call,
    )?;
    match edits {
        Some(edits) => Ok(InlinedCall {
            inlining: CallInlining::Inlined,
            edits,
        }),
        None => Ok(unchanged_call(CallInlining::Unchanged(
            Obstacle::OtherMeaning,
        ))),
    }
}

/// Returns a call that is left as it is, for this reason.
#[inline]
fn unchanged_call(reason: CallInlining) -> InlinedCall {
    InlinedCall {
        inlining: reason,
        edits: Vec::new(),
    }
}

/// Returns what inlining makes of a call of a macro with this rule and this name, whose arguments
/// are all or not.
#[inline(never)]
fn inline_site(
    site: LiteralSite<'_, '_>,
    rule: Rule,
    name: &[u8],
    is_counted: bool,
    is_from_2021: bool,
    allows_mixed: bool,
) -> Result<InlinedCall, AllocError> {
    let appended_newline = appends_newline(name);
    let Some(literal) = read_literal(site.literal.text, appended_newline)? else {
        return Ok(unchanged_call(CallInlining::Unread(CallReading::Malformed)));
    };
    let arguments = with_sources(site.text, site.tokens, site.arguments)?;
    let text = literal.text.as_str();
    let snippet = literal.snippet.as_str();
    let list = arguments.as_slice();
    let string = FormatString {
        text,
        style: literal.style,
        snippet: Some(snippet),
        appended_newline,
        captures_variables: captures_variables(rule, name, is_from_2021),
    };
    let call = FormatCall {
        string,
        arguments: list,
        is_counted,
        is_format_alone: is_format_alone(rule, name, is_from_2021),
        has_const_form: has_const_form(rule),
    };
    inline_format_call(site, call, allows_mixed)
}

/// Returns what inlining makes of a call whose format string begins the argument of this index.
#[inline(never)]
fn inline_at(
    file: File<'_, '_>,
    part: &Part<'_>,
    call: &Call,
    arguments: &[Argument],
    index: usize,
    allows_mixed: bool,
) -> Result<InlinedCall, AllocError> {
    let unread_call = CallInlining::Unread(CallReading::Malformed);
    let Some(string) = argument_at(arguments, index) else {
        return Ok(unchanged_call(unread_call));
    };
    let tokens = part.tokens();
    let Some(literal) = token_at(tokens, string.start) else {
        return Ok(unchanged_call(unread_call));
    };
    let extent = extent_of(
        part.source(),
        ends_early(call.rule),
        call.name + 2,
        string.start + 1,
        call.close,
    );
    let kept_arguments = arguments_before(&arguments[index + 1..], extent.end)?;
    let site = LiteralSite {
        text: file.text,
        tokens,
        literal,
        arguments: &kept_arguments,
    };
    inline_site(
        site,
        call.rule,
        name_at(tokens, call.name),
        extent.is_counted,
        file.is_from_2021,
        allows_mixed,
    )
}

/// Returns what inlining makes of a call whose format string is the argument of this index, or
/// whose templates begin with it.
#[inline(never)]
fn inline_one(
    file: File<'_, '_>,
    part: &Part<'_>,
    call: &Call,
    arguments: &[Argument],
    index: usize,
    allows_mixed: bool,
) -> Result<InlinedCall, AllocError> {
    match call.rule {
        Rule::Templates => Ok(unchanged_call(CallInlining::Assembly)),
        Rule::Index(_) | Rule::IndexByEdition(_) | Rule::FirstLiteral => {
            inline_at(file, part, call, arguments, index, allows_mixed)
        }
    }
}

/// Returns whether the format string of a call of a macro with this rule was not read.
#[inline(never)]
fn is_unread(rule: Rule, reading: CallReading) -> bool {
    match rule {
        Rule::Templates => false,
        Rule::Index(_) | Rule::IndexByEdition(_) | Rule::FirstLiteral => {
            !matches!(reading, CallReading::Whole | CallReading::StringAlone)
        }
    }
}

/// Returns what inlining makes of a call that has this reading.
#[inline(never)]
fn inline_call<'a>(
    file: File<'_, 'a>,
    part: &Part<'a>,
    call: &Call,
    reading: CallReading,
    allows_mixed: bool,
) -> Result<InlinedCall, AllocError> {
    if is_unread(call.rule, reading) {
        return Ok(unchanged_call(CallInlining::Unread(reading)));
    }
    if let Some(reading) = other_macro(file, part.tokens(), call) {
        return Ok(unchanged_call(CallInlining::Unread(reading)));
    }
    let Some(arguments) = arguments(part.source(), call.close)? else {
        return Ok(unchanged_call(CallInlining::Unread(CallReading::Whole)));
    };
    let list = arguments.as_slice();
    match index_or(file, part, call, list) {
        Ok(index) => inline_one(file, part, call, list, index, allows_mixed),
        Err(reading) => Ok(unchanged_call(CallInlining::Unread(reading))),
    }
}

/// Returns what inlining makes of a call that has this reading, on these terms.
#[inline(never)]
fn inline_on<'a>(
    file: File<'_, 'a>,
    part: &Part<'a>,
    call: &Call,
    reading: CallReading,
    terms: Terms<'_>,
) -> Result<InlinedCall, AllocError> {
    let inlined_call = inline_call(file, part, call, reading, terms.allows_mixed)?;
    if !is_inlined(inlined_call.inlining) {
        return Ok(inlined_call);
    }
    match terms.reason(name_at(part.tokens(), call.name)) {
        Some(reason) => Ok(unchanged_call(reason)),
        None => Ok(inlined_call),
    }
}

/// Adds what inlining makes of calls of a part of a file that have these readings, one after the
/// other, on these terms.
#[inline(never)]
pub(crate) fn inline_calls<'a>(
    results: &mut InlinedCalls,
    file: File<'_, 'a>,
    part: &Part<'a>,
    calls: &[Call],
    readings: &[CallReading],
    terms: Terms<'_>,
) -> Result<(), AllocError> {
    let mut rest = calls;
    let mut rest_readings = readings;
    while let Some((call, others)) = rest.split_first() {
        let Some((reading, more)) = rest_readings.split_first() else {
            return Ok(());
        };
        let mut one = inline_on(file, part, call, *reading, terms)?;
        results.inlinings.push(one.inlining);
        results.edits.append(&mut one.edits);
        rest = others;
        rest_readings = more;
    }
    Ok(())
}
