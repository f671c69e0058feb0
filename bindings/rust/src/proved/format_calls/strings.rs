//! The argument of a call that is its format string, or the reason why none is read.

// Extracted from crates/format_calls/src/strings.rt by tools/extract: not to be edited.
// That source has the contracts, and is proved. That this text means the same is only tested.

use crate::proved::format_calls::marks::{is_mark, is_word, token_at};
use crate::proved::format_calls::split::Argument;
use crate::proved::format_calls::table::Rule;
use crate::proved::rust_tokens::Kind;
use crate::proved::rust_trees::{Source, Token};

/// The reason why no format string of a call is read.
#[non_exhaustive]
#[derive(Clone, Copy, Debug, Eq, PartialEq)]
pub enum Reason {
    /// There are too few arguments for one.
    NoArgument,
    /// Before the edition 2021 the last argument of some macros is any expression.
    Edition,
    /// It is a variable of a macro, which `$` begins, or `#` in `quote!`.
    Variable,
    /// It is a literal with a suffix.
    Suffix,
    /// It is the call of a macro, for example `concat!("a", "b")`.
    Macro,
    /// It is another expression, or there is more than a literal.
    Expression,
}

/// Returns whether a token is a string literal that has its end and no suffix.
pub fn is_text_leaf(token: &Token<'_>) -> bool {
    matches!(token.kind, Kind::Str | Kind::RawStr) && token.is_ended && !token.has_suffix
}

/// Returns whether an argument is one string literal.
pub(crate) fn is_text(tokens: &[Token<'_>], argument: &Argument) -> bool {
    match token_at(tokens, argument.start) {
        Some(token) => {
            argument.start < argument.end
                && argument.end - argument.start == 1
                && is_text_leaf(&token)
        }
        None => false,
    }
}

/// Returns the reason why an argument is no string literal.
fn reason_of(tokens: &[Token<'_>], argument: &Argument) -> Reason {
    let start = argument.start;
    let Some(token) = token_at(tokens, start) else {
        return Reason::Expression;
    };
    if is_mark(tokens, start, b'$') || is_mark(tokens, start, b'#') {
        Reason::Variable
    } else if matches!(token.kind, Kind::Str | Kind::RawStr) && token.has_suffix {
        Reason::Suffix
    } else if is_word(&token) && is_mark(tokens, start + 1, b'!') {
        Reason::Macro
    } else {
        Reason::Expression
    }
}

/// Returns whether an argument begins with a string literal that is all of it, or that `;` follows.
fn begins_text(tokens: &[Token<'_>], argument: &Argument) -> bool {
    match token_at(tokens, argument.start) {
        Some(token) => {
            is_text(tokens, argument)
                || is_text_leaf(&token) && is_mark(tokens, argument.start + 1, b';')
        }
        None => false,
    }
}

/// Returns the index of the first argument that begins with the format string, or `None` if there
/// is none.
#[inline]
fn first_text(tokens: &[Token<'_>], arguments: &[Argument]) -> Option<usize> {
    arguments
        .iter()
        .position(|argument| begins_text(tokens, argument))
}

/// Returns this index if the argument with it is the format string, or the reason why none is read.
/// The last argument may be none.
fn string_at(
    tokens: &[Token<'_>],
    arguments: &[Argument],
    index: usize,
    is_last_none: bool,
) -> Result<usize, Reason> {
    if index >= arguments.len() {
        return Err(Reason::NoArgument);
    }
    let argument = &arguments[index];
    if is_last_none && index + 1 == arguments.len() {
        Err(Reason::Edition)
    } else if is_text(tokens, argument) {
        Ok(index)
    } else {
        Err(reason_of(tokens, argument))
    }
}

/// Returns the index of the argument that is the format string of a call, or the reason why none is
/// read.
pub fn format_string(
    source: &Source<'_>,
    rule: Rule,
    arguments: &[Argument],
    is_from_2021: bool,
) -> Result<usize, Reason> {
    let tokens = source.tokens();
    match rule {
        Rule::Index(index) => string_at(tokens, arguments, index, false),
        Rule::Templates => string_at(tokens, arguments, 0, false),
        Rule::IndexByEdition(index) => string_at(tokens, arguments, index, !is_from_2021),
        Rule::FirstLiteral => match first_text(tokens, arguments) {
            Some(index) => Ok(index),
            None => Err(Reason::Expression),
        },
    }
}
