//! The names that a file gives to macros.

// Extracted from crates/macro_owners/src/given.rt by tools/extract: not to be edited.
// That source has the contracts, and is proved. That this text means the same is only tested.

use crate::proved::format_calls::{calls, closing_token, is_mark, Call, Rule, Table};
use crate::proved::macro_owners::arms::rule_of_arms;
use crate::proved::macro_owners::indexed_words::{is_name, is_written};
use crate::proved::rust_trees::{Source, Token};
use crate::shim::alloc::AllocError;
use crate::shim::prelude::*;

/// A name that a file gives to a macro.
#[derive(Clone, Copy)]
pub struct Given {
    /// The index of the token that is the name.
    pub name: usize,
    /// The rule of the macro, if the file defines it and its arms say which argument is the format
    /// string.
    pub rule: Option<Rule>,
}

/// Returns whether `macro_rules!` and a name start at a token.
fn is_definition(tokens: &[Token<'_>], index: usize) -> bool {
    is_written(tokens, index, "macro_rules")
        && is_mark(tokens, index + 1, b'!')
        && is_name(tokens, index + 2)
}

/// Returns whether a path that starts with a token is one of the package.
fn is_own_root(tokens: &[Token<'_>], index: usize) -> bool {
    is_written(tokens, index, "crate")
        || is_written(tokens, index, "self")
        || is_written(tokens, index, "super")
}

/// Returns whether a word ends a name of an import whose path starts with the token `root`, which
/// is 0 where there is no import, and the name is not known to be one of the package.
fn is_imported(tokens: &[Token<'_>], root: usize, index: usize) -> bool {
    let is_end = is_mark(tokens, index + 1, b',')
        || is_mark(tokens, index + 1, b';')
        || is_mark(tokens, index + 1, b'}');
    let is_renamed = is_written(tokens, index.saturating_sub(1), "as");
    root > 0 && is_end && (is_renamed || root != index && !is_own_root(tokens, root))
}

/// Returns whether a word is the name of a macro that is called by a path that is not known to be
/// one of the package.
fn is_called_by_path(tokens: &[Token<'_>], index: usize) -> bool {
    is_mark(tokens, index + 1, b'!')
        && is_mark(tokens, index.saturating_sub(1), b':')
        && !is_own_root(tokens, index.saturating_sub(3))
}

/// Returns whether a token is the name of a macro that may be one of another crate.
fn is_foreign(tokens: &[Token<'_>], root: usize, index: usize) -> bool {
    is_name(tokens, index)
        && (index > 0 && is_written(tokens, index - 1, "macro")
            || is_imported(tokens, root, index)
            || is_called_by_path(tokens, index))
}

/// Returns the first token of the import that goes on after a token, or 0.
fn root_after(tokens: &[Token<'_>], index: usize, root: usize) -> usize {
    if is_written(tokens, index, "use") {
        index + 1
    } else if is_mark(tokens, index, b';') {
        0
    } else {
        root
    }
}

/// Returns whether a condition stands before the item that goes on after a token.
fn conditional_after(tokens: &[Token<'_>], index: usize, has_condition: bool) -> bool {
    let is_end = is_mark(tokens, index, b';')
        || is_mark(tokens, index, b'{')
        || is_mark(tokens, index, b'}');
    is_written(tokens, index, "cfg")
        || is_written(tokens, index, "cfg_attr")
        || has_condition && !is_end
}

/// Returns the rule of a macro whose arms stand between a delimiter and the one that closes it,
/// where these are the calls of known macros, or `None` if they do not say which argument is the
/// format string.
fn definition_rule(source: &Source<'_>, calls: &[Call], opening: usize) -> Option<Rule> {
    let close = closing_token(source, opening)?;
    rule_of_arms(source, calls, opening, close)
}

/// Returns the name that a token gives to a macro, or `None` if it gives none, where `root` is the
/// first token of the import around it, and `has_condition` is whether a condition stands before.
fn given_at(
    source: &Source<'_>,
    calls: &[Call],
    index: usize,
    root: usize,
    has_condition: bool,
) -> Option<Given> {
    let tokens = source.tokens();
    if !is_definition(tokens, index) {
        if is_foreign(tokens, root, index) {
            return Some(Given {
                name: index,
                rule: None,
            });
        }
        return None;
    }
    if has_condition {
        return Some(Given {
            name: index + 2,
            rule: None,
        });
    }
    Some(Given {
        name: index + 2,
        rule: definition_rule(source, calls, index + 3),
    })
}

/// Returns the names that a file gives to macros, one after the other, where these are the calls of
/// known macros.
fn names_among(source: &Source<'_>, calls: &[Call]) -> Result<Vec<Given>, AllocError> {
    let tokens = source.tokens();
    let mut names = Vec::new();
    let mut root = 0;
    let mut has_condition = false;
    for index in 0..tokens.len() {
        if let Some(given) = given_at(source, calls, index, root, has_condition) {
            names.push(given);
        }
        root = root_after(tokens, index, root);
        has_condition = conditional_after(tokens, index, has_condition);
    }
    Ok(names)
}

/// Returns the names that a file gives to macros, one after the other, where the table has the
/// macros whose format string is known.
#[inline]
pub fn given_names(source: &Source<'_>, table: &Table<'_>) -> Result<Vec<Given>, AllocError> {
    let calls = calls(source, table)?;
    names_among(source, &calls)
}
