//! The fault in the arguments of a call whose format string is not read.

// Extracted from crates/call_forms/src/forms.rt by tools/extract: not to be edited.
// That source has the contracts, and is proved. That this text means the same is only tested.

use crate::proved::call_forms::commas::{are_unknown, expected_at, has_more, ExpectedTokens};
use crate::proved::call_forms::expressions::{
    are_path, extra_operand, have_variables, is_operand, tokens_of,
};
use crate::proved::call_forms::operators::{lacks_left, lacks_operand, operator_at, Operator};
use crate::proved::format_calls::{is_standard, Argument, Part, Rule};
use crate::proved::rust_tokens::Kind;
use crate::proved::rust_trees::Token;

/// A fault in the arguments of a call.
#[derive(Clone, Copy)]
pub enum Form<'a> {
    /// There is no format string.
    NoString,
    /// The format string is no string literal.
    NoLiteral {
        /// How many arguments stand after it.
        other_count: usize,
        /// Whether it is a byte string literal.
        is_bytes: bool,
    },
    /// No comma stands before a token.
    NoComma {
        /// The tokens that rustc expects.
        expected: ExpectedTokens,
        /// The token that stands there.
        operator: Operator<'a>,
    },
    /// No operand stands before this operator, with which an argument begins.
    NoOperand(Operator<'a>),
    /// No expression stands where an argument ends.
    NoExpression {
        /// The index of the argument.
        index: usize,
        /// Whether the end of the call follows it. A comma does otherwise.
        is_last: bool,
    },
}

/// Returns whether an argument is a byte string literal.
fn is_bytes(tokens: &[Token<'_>]) -> bool {
    match tokens {
        [token] => matches!(token.kind, Kind::ByteStr | Kind::RawByteStr),
        _ => false,
    }
}

/// Returns what is wrong with an argument that should be the format string, where so many others
/// stand after it, or `None` if nothing is known to be.
fn literal_form<'a>(tokens: &[Token<'a>], other_count: usize) -> Option<Form<'a>> {
    let Some(first) = tokens.first() else {
        return None;
    };
    if !matches!(first.kind, Kind::Str | Kind::RawStr) && is_operand(first) && are_path(tokens) {
        return Some(Form::NoLiteral {
            other_count,
            is_bytes: is_bytes(tokens),
        });
    }
    None
}

/// Returns the tokens of the argument with an index, or `None` if there is none.
fn part_at<'s, 'a>(
    tokens: &'s [Token<'a>],
    arguments: &[Argument],
    index: usize,
) -> Option<&'s [Token<'a>]> {
    match arguments.get(index) {
        Some(argument) => Some(tokens_of(tokens, argument)),
        None => None,
    }
}

/// Returns whether an argument has no token, or an operator lacks an operand.
#[inline]
fn lacks_expression(tokens: &[Token<'_>]) -> bool {
    tokens.is_empty() || lacks_operand(tokens)
}

/// Returns whether an argument is no expression, as far as its tokens show: it has none, an
/// operator lacks an operand, or two operands stand next to each other.
fn is_bad(part: &Part<'_>, argument: &Argument) -> bool {
    lacks_expression(tokens_of(part.tokens(), argument)) || extra_operand(part, argument).is_some()
}

/// Returns the index of the first argument that is no expression, or `None` if there is none.
fn first_bad(part: &Part<'_>, arguments: &[Argument]) -> Option<usize> {
    for (index, argument) in arguments.iter().enumerate() {
        if is_bad(part, argument) {
            return Some(index);
        }
    }
    None
}

/// Returns the fault that no comma stands before a token, where rustc expects these tokens.
#[inline]
fn no_comma(expected: ExpectedTokens, operator: Operator<'_>) -> Form<'_> {
    Form::NoComma { expected, operator }
}

/// Returns what is wrong with an argument in which the operand with an index stands right after
/// another one. `is_string` is whether it should be the format string.
fn joined_form<'a>(tokens: &[Token<'a>], index: usize, is_string: bool) -> Option<Form<'a>> {
    if !is_string && are_unknown(tokens) {
        return None;
    }
    let Some(operator) = operator_at(tokens, index) else {
        return None;
    };
    if is_string {
        Some(no_comma(ExpectedTokens::Comma, operator))
    } else {
        Some(no_comma(expected_at(tokens, index), operator))
    }
}

/// Returns what is wrong with an argument that begins with an operator which needs an operand
/// before it, or `None` if there is no token.
fn operand_form<'a>(tokens: &[Token<'a>]) -> Option<Form<'a>> {
    match operator_at(tokens, 0) {
        Some(operator) => Some(Form::NoOperand(operator)),
        None => None,
    }
}

/// Returns what is wrong with the argument with an index, which is no expression. `is_string` is
/// whether it should be the format string, and `is_last` whether the end of the call follows it.
fn bad_form<'a>(
    part: &Part<'a>,
    argument: &Argument,
    index: usize,
    is_string: bool,
    is_last: bool,
) -> Option<Form<'a>> {
    let tokens = tokens_of(part.tokens(), argument);
    if lacks_left(tokens) {
        return operand_form(tokens);
    }
    match extra_operand(part, argument) {
        Some(operand) => joined_form(tokens, operand, is_string),
        None => Some(Form::NoExpression { index, is_last }),
    }
}

/// Returns whether the end of the call follows the argument with an index.
fn is_last(arguments: &[Argument], index: usize, close: usize) -> bool {
    match arguments.get(index) {
        Some(argument) => argument.end == close,
        None => false,
    }
}

/// Returns what is wrong with arguments of which the one with the index `bad_index` is no
/// expression, and the one with the index `string_index` should be the format string. `is_last` is
/// whether the end of the call follows the one that is no expression.
fn form_at<'a>(
    part: &Part<'a>,
    arguments: &[Argument],
    string_index: usize,
    bad_index: usize,
    is_last: bool,
) -> Option<Form<'a>> {
    match arguments.get(bad_index) {
        Some(argument) if bad_index >= string_index => bad_form(
            part,
            argument,
            bad_index,
            bad_index == string_index,
            is_last,
        ),
        _ => None,
    }
}

/// Returns whether all arguments before the one with an index are expressions, where the one with
/// the index `bad_index`, if any, is the first that is none.
#[inline]
fn starts_well(bad_index: Option<usize>, index: usize) -> bool {
    match bad_index {
        Some(bad_index) => bad_index >= index,
        None => true,
    }
}

/// Returns the fault of an argument that is a string literal and more tokens after it, if it is
/// known.
fn comma_form<'a>(tokens: &[Token<'a>]) -> Option<Form<'a>> {
    match operator_at(tokens, 1) {
        Some(operator) => Some(no_comma(ExpectedTokens::Comma, operator)),
        None => None,
    }
}

/// Returns how many arguments stand after the one with an index.
#[inline]
fn others_after(arguments: &[Argument], index: usize) -> usize {
    arguments.len().saturating_sub(index).saturating_sub(1)
}

/// Returns what is wrong with the arguments of a call of which the one with this index should be
/// the format string, or `None` if nothing is known to be. `lacks_string` is whether it is a fault
/// that there is none, and the list of arguments ends at a token.
fn form_of<'a>(
    part: &Part<'a>,
    arguments: &[Argument],
    index: usize,
    lacks_string: bool,
    close: usize,
) -> Option<Form<'a>> {
    if have_variables(part, arguments) {
        return None;
    }
    let bad_index = first_bad(part, arguments);
    if let Some(string) = part_at(part.tokens(), arguments, index) {
        if starts_well(bad_index, index) && has_more(string) {
            return comma_form(string);
        }
    }
    match bad_index {
        Some(bad_index) => form_at(
            part,
            arguments,
            index,
            bad_index,
            is_last(arguments, bad_index, close),
        ),
        None => match part_at(part.tokens(), arguments, index) {
            Some(string) => literal_form(string, others_after(arguments, index)),
            None => {
                if lacks_string {
                    Some(Form::NoString)
                } else {
                    None
                }
            }
        },
    }
}

/// Returns whether a macro of this name wants a format string, and has no other rule where none is
/// given.
fn needs_string(name: &[u8]) -> bool {
    name == b"format".as_slice()
        || name == b"format_args".as_slice()
        || name == b"print".as_slice()
        || name == b"eprint".as_slice()
}

/// Returns whether it is a fault that a call of a macro of this name, with these arguments before
/// the delimiter at `close`, has no format string.
fn lacks_string(name: &[u8], arguments: &[Argument], close: usize) -> bool {
    match arguments {
        [] => needs_string(name),
        [only] => name == b"write".as_slice() && only.end != close,
        _ => false,
    }
}

/// Returns the index of the argument that should be the format string of a macro of the standard
/// library with this rule, or `None` if it may be any expression.
fn index_of(rule: Rule, is_from_2021: bool) -> Option<usize> {
    match rule {
        Rule::Index(index) => Some(index),
        Rule::IndexByEdition(index) => {
            if is_from_2021 {
                Some(index)
            } else {
                None
            }
        }
        Rule::FirstLiteral | Rule::Templates => None,
    }
}

/// Returns what is wrong with the arguments of a call of a macro of this name and with this rule,
/// or `None` if nothing is known to be, as of macros that are not those of the standard library.
pub fn form_here<'a>(
    part: &Part<'a>,
    name: &[u8],
    rule: Rule,
    is_from_2021: bool,
    arguments: &[Argument],
    close: usize,
) -> Option<Form<'a>> {
    if !is_standard(name) {
        return None;
    }
    match index_of(rule, is_from_2021) {
        Some(index) => form_of(
            part,
            arguments,
            index,
            lacks_string(name, arguments, close),
            close,
        ),
        None => None,
    }
}
