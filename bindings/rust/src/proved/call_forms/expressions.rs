//! Whether the arguments of a call are expressions, as far as their tokens show.

// Extracted from crates/call_forms/src/expressions.rt by tools/extract: not to be edited.
// That source has the contracts, and is proved. That this text means the same is only tested.

use crate::proved::call_forms::keywords::{is_control, is_modifier, is_special};
use crate::proved::format_calls::{closing_token, is_mark_of, token_at, Argument, Part};
use crate::proved::rust_tokens::Kind;
use crate::proved::rust_trees::{Delimiter, Side, Source, Token};

/// Returns the tokens of an argument.
pub fn tokens_of<'s, 'a>(tokens: &'s [Token<'a>], argument: &Argument) -> &'s [Token<'a>] {
    let rest = &tokens[argument.start.min(tokens.len())..];
    let count = argument.end.saturating_sub(argument.start);
    &rest[..count.min(rest.len())]
}

/// Returns whether tokens of this kind are literals.
fn is_literal(kind: Kind) -> bool {
    matches!(
        kind,
        Kind::BinaryInt
            | Kind::OctalInt
            | Kind::DecimalInt
            | Kind::HexadecimalInt
            | Kind::Float
            | Kind::Char
            | Kind::Byte
            | Kind::Str
            | Kind::ByteStr
            | Kind::CStr
            | Kind::RawStr
            | Kind::RawByteStr
            | Kind::RawCStr
    )
}

/// Returns whether a token is an operand: a word that is no keyword, or a literal.
pub fn is_operand(token: &Token<'_>) -> bool {
    match token.kind {
        Kind::RawIdent => true,
        Kind::Ident => {
            !is_control(token.text) && !is_modifier(token.text) && !is_special(token.text)
        }
        kind => token.is_ended && is_literal(kind),
    }
}

/// Returns the number of delimiters that are open after a token, of which there are `depth` before
/// it.
fn depth_after(depth: usize, token: &Token<'_>) -> usize {
    match token.side() {
        Side::Opens(_) => depth + 1,
        Side::Closes(_) => depth.saturating_sub(1),
        Side::Neither => depth,
    }
}

/// Returns whether a token is an operand after another one.
#[inline]
fn is_second(is_after: bool, token: &Token<'_>) -> bool {
    is_after && is_operand(token)
}

/// Returns whether a token closes parentheses.
#[inline]
fn closes_parentheses(token: &Token<'_>) -> bool {
    matches!(token.side(), Side::Closes(Delimiter::Parenthesis))
}

/// Returns whether an operand outside delimiters ends with a token, before which `depth` are open:
/// the token is one, or closes parentheses.
fn ends_operand(depth: usize, token: &Token<'_>) -> bool {
    depth == 0 && is_operand(token) || depth == 1 && closes_parentheses(token)
}

/// Returns whether an operand ends with the pair of delimiters that the token with an index closes,
/// before which `depth` are open.
fn ends_pair(depth: usize, tokens: &[Token<'_>], close: usize) -> bool {
    match token_at(tokens, close) {
        Some(token) => depth == 0 && closes_parentheses(&token),
        None => false,
    }
}

/// Returns the token before another one that closes the pair that a token opens, or `None` if it
/// opens none.
fn closing_before(
    source: &Source<'_>,
    index: usize,
    token: &Token<'_>,
    end: usize,
) -> Option<usize> {
    if !matches!(token.kind, Kind::Punct) {
        return None;
    }
    match closing_token(source, index) {
        Some(close) if close < end => Some(close),
        _ => None,
    }
}

/// Returns the index in an argument of its first operand outside delimiters that stands right after
/// another one, or `None` if there is none. Pairs of delimiters are passed at once.
fn next_operand(source: &Source<'_>, argument: &Argument) -> Option<usize> {
    if argument.end.saturating_sub(argument.start) < 2 {
        return None;
    }
    let tokens = source.tokens();
    let mut index = argument.start;
    let mut is_after = false;
    let mut depth = 0;
    while index < argument.end {
        let Some(token) = token_at(tokens, index) else {
            return None;
        };
        if is_second(is_after, &token) {
            return Some(index - argument.start);
        }
        match closing_before(source, index, &token, argument.end) {
            Some(close) => {
                is_after = ends_pair(depth, tokens, close);
                index = close + 1;
            }
            None => {
                is_after = ends_operand(depth, &token);
                depth = depth_after(depth, &token);
                index += 1;
            }
        }
    }
    None
}

/// Returns the index in an argument of its first operand that stands right after another one, or
/// `None` if there is none or a variable of a macro stands there.
pub fn extra_operand(part: &Part<'_>, argument: &Argument) -> Option<usize> {
    if part.has_variable(argument) {
        return None;
    }
    next_operand(part.source(), argument)
}

/// Returns whether a token may stand in a path or in the access to a field.
fn is_path(token: &Token<'_>) -> bool {
    is_operand(token) || is_mark_of(token, b'.') || is_mark_of(token, b':')
}

/// Returns whether all tokens may stand in a path or in the access to a field.
#[inline]
pub fn are_path(tokens: &[Token<'_>]) -> bool {
    for token in tokens {
        if !is_path(token) {
            return false;
        }
    }
    true
}

/// Returns whether a variable of a macro stands in one of these arguments.
pub fn have_variables(part: &Part<'_>, arguments: &[Argument]) -> bool {
    for argument in arguments {
        if part.has_variable(argument) {
            return true;
        }
    }
    false
}

/// Returns whether an argument that has tokens is no expression.
pub fn have_joined(part: &Part<'_>, arguments: &[Argument]) -> bool {
    for argument in arguments {
        if extra_operand(part, argument).is_some() {
            return true;
        }
    }
    false
}
