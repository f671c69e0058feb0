//! Operators of one to three characters, and arguments in which one lacks an operand.

// Extracted from crates/call_forms/src/operators.rt by tools/extract: not to be edited.
// That source has the contracts, and is proved. That this text means the same is only tested.

use crate::proved::call_forms::expressions::is_operand;
use crate::proved::call_forms::keywords::is_special;
use crate::proved::format_calls::{is_joint, is_mark_of, is_text, token_at};
use crate::proved::rust_tokens::Kind;
use crate::proved::rust_trees::{Side, Token};

/// A token as rustc has it, where an operator is one token.
#[derive(Clone, Copy)]
pub struct Operator<'a> {
    /// The first character of an operator, or all of any other token.
    pub first: Token<'a>,
    /// The second character of an operator, or an empty text.
    pub second: &'a str,
    /// The third character of an operator, or an empty text.
    pub third: &'a str,
}

/// Returns whether a token is a character that makes an operator with another one of its kind.
fn doubles(token: &Token<'_>) -> bool {
    is_mark_of(token, b'&')
        || is_mark_of(token, b'|')
        || is_mark_of(token, b'<')
        || is_mark_of(token, b'>')
        || is_mark_of(token, b'.')
        || is_mark_of(token, b':')
}

/// Returns whether a token is a character that makes an operator with `=` after it.
fn takes_equals(token: &Token<'_>) -> bool {
    is_mark_of(token, b'=')
        || is_mark_of(token, b'!')
        || is_mark_of(token, b'<')
        || is_mark_of(token, b'>')
        || is_mark_of(token, b'+')
        || is_mark_of(token, b'-')
        || is_mark_of(token, b'*')
        || is_mark_of(token, b'/')
        || is_mark_of(token, b'%')
        || is_mark_of(token, b'^')
        || is_mark_of(token, b'&')
        || is_mark_of(token, b'|')
}

/// Returns whether two characters are an operator, or begin one.
fn is_pair(token: &Token<'_>, next: &Token<'_>) -> bool {
    takes_equals(token) && is_mark_of(next, b'=')
        || is_mark_of(token, b'=') && is_mark_of(next, b'>')
        || is_mark_of(token, b'-') && is_mark_of(next, b'>')
        || is_mark_of(token, b'<') && is_mark_of(next, b'-')
        || doubles(token) && token.text == next.text
}

/// Returns whether two tokens are an operator, or begin one.
#[inline]
fn is_glued(token: &Token<'_>, next: &Token<'_>) -> bool {
    is_joint(token, next) && is_pair(token, next)
}

/// Returns whether a character may be the third one of an operator that begins with another one
/// twice.
fn is_third(first: &Token<'_>, token: &Token<'_>) -> bool {
    is_mark_of(token, b'=')
        && (is_mark_of(first, b'<') || is_mark_of(first, b'>') || is_mark_of(first, b'.'))
        || is_mark_of(first, b'.') && is_mark_of(token, b'.')
}

/// Returns whether the third of these tokens belongs to the operator that the others begin.
fn ends_operator(first: &Token<'_>, second: &Token<'_>, third: &Token<'_>) -> bool {
    is_joint(second, third) && (first.text == second.text && is_third(first, third))
}

/// Returns the third character of the operator that two tokens begin, or an empty text.
fn third_text<'a>(first: &Token<'_>, second: &Token<'_>, third: Option<Token<'a>>) -> &'a str {
    match third {
        Some(third) if ends_operator(first, second, &third) => third.text,
        _ => "",
    }
}

/// Returns the operator that a token begins, or the token alone.
fn operator_by<'a>(
    first: Token<'a>,
    second: Option<Token<'a>>,
    third: Option<Token<'a>>,
) -> Operator<'a> {
    match second {
        Some(second) if is_glued(&first, &second) => Operator {
            first,
            second: second.text,
            third: third_text(&first, &second, third),
        },
        _ => Operator {
            first,
            second: "",
            third: "",
        },
    }
}

/// Returns the token with an index as rustc has it, or `None` if there is none.
pub fn operator_at<'a>(tokens: &[Token<'a>], index: usize) -> Option<Operator<'a>> {
    let Some(first) = token_at(tokens, index) else {
        return None;
    };
    let second = token_at(tokens, index + 1);
    let third = token_at(tokens, index + 2);
    Some(operator_by(first, second, third))
}

/// Returns whether no expression begins with a character.
fn is_infix(token: &Token<'_>) -> bool {
    is_mark_of(token, b'=')
        || is_mark_of(token, b'>')
        || is_mark_of(token, b'/')
        || is_mark_of(token, b'%')
        || is_mark_of(token, b'^')
        || is_mark_of(token, b';')
        || is_mark_of(token, b'?')
        || is_mark_of(token, b'@')
}

/// Returns whether tokens begin with an operator that needs an operand before it.
pub fn lacks_left(tokens: &[Token<'_>]) -> bool {
    match tokens.first() {
        Some(first) if matches!(first.kind, Kind::Punct) => {
            if is_infix(first) {
                return true;
            }
            match token_at(tokens, 1) {
                Some(second) => is_mark_of(&second, b'=') && is_glued(first, &second),
                None => false,
            }
        }
        _ => false,
    }
}

/// Returns whether a token closes a pair of delimiters.
fn is_closing(token: &Token<'_>) -> bool {
    match token.side() {
        Side::Closes(_) => true,
        Side::Opens(_) | Side::Neither => false,
    }
}

/// Returns whether an operand ends with a token.
fn is_operand_end(token: Option<Token<'_>>) -> bool {
    match token {
        Some(token) => {
            is_operand(&token)
                || is_special(token.text)
                || is_closing(&token)
                || is_mark_of(&token, b'?')
        }
        None => false,
    }
}

/// Returns whether a token is an operator that needs an operand after it.
fn is_single(token: &Token<'_>) -> bool {
    is_mark_of(token, b'=')
        || is_mark_of(token, b'+')
        || is_mark_of(token, b'-')
        || is_mark_of(token, b'*')
        || is_mark_of(token, b'/')
        || is_mark_of(token, b'%')
        || is_mark_of(token, b'^')
        || is_mark_of(token, b'&')
}

/// Returns whether a character is an operator that needs an operand after it, alone and twice.
fn is_either(token: &Token<'_>) -> bool {
    is_mark_of(token, b'|') || is_mark_of(token, b'<') || is_mark_of(token, b'>')
}

/// Returns whether two characters of an operator are one that needs an operand after it.
fn is_double(token: &Token<'_>, next: &Token<'_>) -> bool {
    is_mark_of(next, b'=') || (is_mark_of(next, b'&') || is_either(next)) && token.text == next.text
}

/// Returns whether a token is an operator with which an expression begins.
fn is_prefix(token: &Token<'_>) -> bool {
    is_mark_of(token, b'*')
        || is_mark_of(token, b'&')
        || is_mark_of(token, b'-')
        || is_mark_of(token, b'!')
}

/// Returns whether a token is the last character of an operator that needs an operand after it.
fn is_end(token: &Token<'_>) -> bool {
    matches!(token.kind, Kind::Punct)
        && (is_single(token) || is_either(token) || is_mark_of(token, b'!'))
}

/// Returns the number of characters of an operator after an operand that ends with the last of
/// three tokens, or 0.
fn operator_len(previous: Option<Token<'_>>, second: Option<Token<'_>>, last: &Token<'_>) -> usize {
    match second {
        Some(token) => {
            if is_glued(&token, last) {
                if is_double(&token, last) && is_operand_end(previous) {
                    2
                } else {
                    0
                }
            } else if (is_single(last) || is_either(last)) && is_operand_end(second) {
                1
            } else {
                0
            }
        }
        None => 0,
    }
}

/// Returns whether this token stands in a closure, a pattern or a type, where rustc says more of an
/// operator after it, or reads it as another one.
fn is_unclear(token: &Token<'_>) -> bool {
    is_mark_of(token, b'|')
        || is_mark_of(token, b'<')
        || is_text(token, "as")
        || is_text(token, "let")
}

/// Returns whether rustc says more of an operator after these tokens, or may do so.
#[inline]
fn are_unclear(tokens: &[Token<'_>]) -> bool {
    for token in tokens {
        if is_unclear(token) {
            return true;
        }
    }
    false
}

/// Returns whether tokens end with an operator of so many characters, and what stands before it is
/// clear.
fn ends_by(tokens: &[Token<'_>], len: usize) -> bool {
    len > 0 && !are_unclear(&tokens[..tokens.len().saturating_sub(len)])
}

/// Returns whether tokens, of which this is the last one, end with an operator that needs an
/// operand after it.
fn lacks_after(tokens: &[Token<'_>], last: &Token<'_>) -> bool {
    if !is_end(last) {
        return false;
    }
    let count = tokens.len();
    if count == 1 {
        return is_prefix(last);
    }
    let second = token_at(tokens, count.saturating_sub(2));
    let previous = token_at(tokens, count.saturating_sub(3));
    ends_by(tokens, operator_len(previous, second, last))
}

/// Returns whether tokens end with an operator that needs an operand after it.
pub fn lacks_right(tokens: &[Token<'_>]) -> bool {
    match tokens.get(tokens.len().saturating_sub(1)) {
        Some(last) => lacks_after(tokens, last),
        None => false,
    }
}

/// Returns whether tokens are no expression, since an operator lacks an operand.
#[inline]
pub fn lacks_operand(tokens: &[Token<'_>]) -> bool {
    lacks_left(tokens) || lacks_right(tokens)
}
