//! The commas that are missing, and the tokens that rustc expects instead of what stands there.

// Extracted from crates/call_forms/src/commas.rt by tools/extract: not to be edited.
// That source has the contracts, and is proved. That this text means the same is only tested.

use crate::proved::call_forms::keywords::{is_control, is_modifier};
use crate::proved::format_calls::{is_mark_of, is_text, is_word, token_at};
use crate::proved::rust_tokens::Kind;
use crate::proved::rust_trees::Token;

/// The tokens that rustc expects where another one stands.
#[derive(Clone, Copy)]
pub enum ExpectedTokens {
    /// A comma, after the format string.
    Comma,
    /// Those after a path.
    Path,
    /// Those after the name of a field.
    Field,
    /// Those after any other operand.
    Value,
}

/// Returns whether these tokens are a string literal, which may have a suffix, and others after it.
pub fn has_more(tokens: &[Token<'_>]) -> bool {
    match tokens.first() {
        Some(first) => {
            tokens.len() > 1 && (matches!(first.kind, Kind::Str | Kind::RawStr) && first.is_ended)
        }
        None => false,
    }
}

/// Returns whether it is not known what rustc expects after an operand, where this token stands in
/// the argument.
fn is_unknown(token: &Token<'_>) -> bool {
    is_control(token.text)
        || is_modifier(token.text)
        || is_mark_of(token, b'|')
        || token.text == "and"
        || token.text == "or"
}

/// Returns whether it is not known what rustc expects after an operand of an argument.
#[inline]
pub fn are_unknown(tokens: &[Token<'_>]) -> bool {
    for token in tokens {
        if is_unknown(token) {
            return true;
        }
    }
    false
}

/// Returns whether the token is a period.
fn is_period(token: Option<Token<'_>>) -> bool {
    match token {
        Some(token) => is_mark_of(&token, b'.'),
        None => false,
    }
}

/// Returns what rustc expects after an operand, from its last three tokens.
fn expected_by(
    previous: Option<Token<'_>>,
    second: Option<Token<'_>>,
    last: Option<Token<'_>>,
) -> ExpectedTokens {
    match last {
        Some(last) if is_word(&last) => {
            if !is_period(second) || is_period(previous) {
                ExpectedTokens::Path
            } else if is_text(&last, "await") {
                ExpectedTokens::Value
            } else {
                ExpectedTokens::Field
            }
        }
        _ => ExpectedTokens::Value,
    }
}

/// Returns what rustc expects after the operand that ends before the token with an index.
pub fn expected_at(tokens: &[Token<'_>], index: usize) -> ExpectedTokens {
    let last = token_at(tokens, index.saturating_sub(1));
    let second = token_at(tokens, index.saturating_sub(2));
    let previous = token_at(tokens, index.saturating_sub(3));
    expected_by(previous, second, last)
}
