//! The commas that end an argument.

// Extracted from crates/format_calls/src/modes.rt by tools/extract: not to be edited.
// That source has the contracts, and is proved. That this text means the same is only tested.

use crate::proved::format_calls::marks::{is_after, is_mark, is_mark_of, is_word, token_at};
use crate::proved::rust_tokens::Kind;
use crate::proved::rust_trees::{Side, Token};

/// The mode in which a token of an argument is read.
#[derive(Clone, Copy)]
pub enum Mode {
    /// The start of an expression, or of a type, where `true` stands: `<` opens a list in angles,
    /// and `|` the parameters of a closure.
    Start(bool),
    /// An expression or a type goes on. Only in a type `<` opens a list in angles.
    Within(bool),
    /// The second character of `||` or `<<`.
    Operator,
    /// A list in this many angles.
    Angles(usize),
    /// The parameters of a closure.
    Parameters,
}

/// Returns whether a token follows another one without white space and comments.
pub fn is_joint(token: &Token<'_>, next: &Token<'_>) -> bool {
    token.start <= next.start && next.start - token.start == token.text.len()
}

/// Returns whether this character of punctuation follows a token without white space and comments.
pub fn is_followed(tokens: &[Token<'_>], index: usize, mark: u8) -> bool {
    match token_at(tokens, index) {
        Some(token) => match token_at(tokens, index + 1) {
            Some(next) => is_joint(&token, &next) && is_mark(tokens, index + 1, mark),
            None => false,
        },
        None => false,
    }
}

/// Returns whether `<` opens a list in angles where one may stand: it does not begin `<=`.
fn opens_list(tokens: &[Token<'_>], index: usize) -> bool {
    is_mark(tokens, index, b'<') && !is_followed(tokens, index, b'=')
}

/// Returns whether the token is the `>` of `->`.
fn is_arrow(tokens: &[Token<'_>], index: usize) -> bool {
    is_mark(tokens, index, b'>')
        && is_after(tokens, index, b'-')
        && is_followed(tokens, index - 1, b'>')
}

/// Returns whether `>` closes a list in angles: it is not the end of `->`.
#[inline]
fn closes_list(tokens: &[Token<'_>], index: usize) -> bool {
    is_mark(tokens, index, b'>') && !is_arrow(tokens, index)
}

/// Returns whether the token is the first character of `||` or `<<`.
fn is_double(tokens: &[Token<'_>], index: usize) -> bool {
    is_mark(tokens, index, b'|') && is_followed(tokens, index, b'|')
        || is_mark(tokens, index, b'<') && is_followed(tokens, index, b'<')
}

/// Returns whether the token is this word, not a raw one.
pub fn is_text(token: &Token<'_>, word: &str) -> bool {
    matches!(token.kind, Kind::Ident) && token.text == word
}

/// Returns whether the token is a keyword after which an expression starts, or after which a type
/// goes on to start.
fn is_keyword(token: &Token<'_>) -> bool {
    is_text(token, "async")
        || is_text(token, "break")
        || is_text(token, "const")
        || is_text(token, "if")
        || is_text(token, "in")
        || is_text(token, "match")
        || is_text(token, "move")
        || is_text(token, "mut")
        || is_text(token, "return")
        || is_text(token, "static")
        || is_text(token, "while")
        || is_text(token, "yield")
}

/// Returns whether a type that starts at this token still starts after it: it is `&`, `*`, a
/// lifetime or a keyword.
fn is_prefix(token: &Token<'_>) -> bool {
    is_mark_of(token, b'&')
        || is_mark_of(token, b'*')
        || matches!(token.kind, Kind::Lifetime)
        || is_keyword(token)
}

/// Returns whether an expression starts after the token: it is punctuation, but no delimiter and no
/// `?`.
fn is_operator(token: &Token<'_>) -> bool {
    matches!(token.kind, Kind::Punct)
        && matches!(token.side(), Side::Neither)
        && !is_mark_of(token, b'?')
}

/// Returns the mode after a token, at the start of an expression or of a type or not, and in a type
/// or not.
fn mode_after_leaf(tokens: &[Token<'_>], index: usize, is_start: bool, is_type: bool) -> Mode {
    let Some(token) = token_at(tokens, index) else {
        return Mode::Within(false);
    };
    if is_double(tokens, index) {
        Mode::Operator
    } else if is_text(&token, "as") || is_arrow(tokens, index) {
        Mode::Start(true)
    } else if is_mark_of(&token, b':') {
        Mode::Start(is_type)
    } else if is_prefix(&token) {
        Mode::Start(is_start && is_type)
    } else if is_operator(&token) {
        Mode::Start(false)
    } else {
        Mode::Within(is_type && is_word(&token))
    }
}

/// Returns the mode after the tree at a token.
pub fn mode_after(tokens: &[Token<'_>], index: usize, mode: Mode) -> Mode {
    match mode {
        Mode::Start(is_type) => {
            if opens_list(tokens, index) {
                Mode::Angles(1)
            } else if is_mark(tokens, index, b'|') {
                Mode::Parameters
            } else {
                mode_after_leaf(tokens, index, true, is_type)
            }
        }
        Mode::Within(is_type) => {
            if is_type && opens_list(tokens, index) {
                Mode::Angles(1)
            } else {
                mode_after_leaf(tokens, index, false, is_type)
            }
        }
        Mode::Operator => Mode::Start(false),
        Mode::Angles(depth) => {
            if is_mark(tokens, index, b'<') {
                Mode::Angles(depth + 1)
            } else if !closes_list(tokens, index) {
                Mode::Angles(depth)
            } else if depth > 1 {
                Mode::Angles(depth - 1)
            } else {
                Mode::Within(false)
            }
        }
        Mode::Parameters => {
            if is_mark(tokens, index, b'|') {
                Mode::Start(false)
            } else {
                Mode::Parameters
            }
        }
    }
}
