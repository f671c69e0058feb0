//! The arguments of a call, as its placeholders refer to them.

// Extracted from crates/source_lint/src/givens.rt by tools/extract: not to be edited.
// That source has the contracts, and is proved. That this text means the same is only tested.

use crate::proved::asm_lint::{name_of, without_raw};
use crate::proved::call_faults::FormatArgument;
use crate::proved::format_calls::{token_at, Argument};
use crate::proved::rust_tokens::Kind;
use crate::proved::rust_trees::Token;
use crate::shim::alloc::AllocError;
use crate::shim::prelude::*;

/// Returns whether a word is an expression by itself, and no variable.
fn is_keyword(word: &str) -> bool {
    word == "_"
        || word == "break"
        || word == "continue"
        || word == "false"
        || word == "return"
        || word == "true"
        || word == "yield"
}

/// Returns the variable that a token is, without `r#`, or `None` if it is none.
fn variable<'a>(token: &Token<'a>) -> Option<&'a str> {
    match token.kind {
        Kind::Ident => {
            if is_keyword(token.text) {
                None
            } else {
                Some(token.text)
            }
        }
        Kind::RawIdent => Some(without_raw(token.text)),
        _ => None,
    }
}

/// Returns the variable that an argument without a name is, or `None` if it is anything else.
fn variable_of<'a>(tokens: &[Token<'a>], argument: &Argument) -> Option<&'a str> {
    if argument.is_named || argument.start >= argument.end || argument.end - argument.start != 1 {
        return None;
    }
    match token_at(tokens, argument.start) {
        Some(token) => variable(&token),
        None => None,
    }
}

/// Returns an argument as placeholders refer to it.
fn format_argument<'a>(tokens: &[Token<'a>], argument: &Argument) -> FormatArgument<'a> {
    FormatArgument {
        name: name_of(tokens, argument),
        variable: variable_of(tokens, argument),
    }
}

/// Returns arguments as placeholders refer to them.
pub fn givens<'a>(
    tokens: &[Token<'a>],
    arguments: &[Argument],
) -> Result<Vec<FormatArgument<'a>>, AllocError> {
    let mut list = Vec::new();
    for argument in arguments {
        list.push(format_argument(tokens, argument));
    }
    Ok(list)
}
