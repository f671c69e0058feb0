//! Calls of the macros of a table.

// Extracted from crates/format_calls/src/listing.rt by tools/extract: not to be edited.
// That source has the contracts, and is proved. That this text means the same is only tested.

use crate::proved::format_calls::marks::{is_after, is_mark, is_word, token_at, word};
use crate::proved::format_calls::table::{rule_of, Row, Rule, Table};
use crate::proved::rust_trees::{Source, Token};
use crate::shim::alloc::AllocError;
use crate::shim::prelude::*;

/// A call of a macro: a word, `!` and a pair of delimiters.
#[derive(Clone, Copy)]
pub struct Call {
    /// The rule of the macro.
    pub rule: Rule,
    /// The index of the token that is its name. `!` and the opening delimiter follow.
    pub name: usize,
    /// The index of the closing delimiter.
    pub close: usize,
}

/// Returns the rule of a token that is a word of a table, or `None` if it is none.
fn rule_at(tokens: &[Token<'_>], rows: &[Row<'_>], name: usize) -> Option<Rule> {
    match token_at(tokens, name) {
        Some(token) => {
            if is_word(&token) {
                rule_of(rows, word(&token))
            } else {
                None
            }
        }
        None => None,
    }
}

/// Returns the call whose name is this token, or `None` if there is none.
fn call_at(source: &Source<'_>, rows: &[Row<'_>], name: usize) -> Option<Call> {
    let tokens = source.tokens();
    if !is_mark(tokens, name + 1, b'!') {
        return None;
    }
    if is_after(tokens, name, b'$') {
        return None;
    }
    let Some(rule) = rule_at(tokens, rows, name) else {
        return None;
    };
    let Some(close) = source.partner(name + 2) else {
        return None;
    };
    if close > name + 2 {
        Some(Call { rule, name, close })
    } else {
        None
    }
}

/// Returns the calls of the macros of a table, in the order of their names.
pub fn calls(source: &Source<'_>, table: &Table<'_>) -> Result<Vec<Call>, AllocError> {
    let mut calls = Vec::new();
    for name in 0..source.tokens().len() {
        if let Some(call) = call_at(source, &table.rows, name) {
            calls.push(call);
        }
    }
    Ok(calls)
}
