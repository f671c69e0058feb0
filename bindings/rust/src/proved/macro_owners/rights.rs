//! The right sides of arms.

// Extracted from crates/macro_owners/src/rights.rt by tools/extract: not to be edited.
// That source has the contracts, and is proved. That this text means the same is only tested.

use crate::proved::format_calls::{Call, Rule};
use crate::proved::macro_owners::indexed_words::{is_copy, is_use, is_written};
use crate::proved::rust_trees::Token;

/// The part of a file that is the right side of an arm.
#[derive(Clone, Copy)]
pub struct Right {
    /// The index of the name of the variable that takes all further tokens.
    pub variable: usize,
    /// The index of the first token.
    pub start: usize,
    /// The index of the token after it, which closes it.
    pub end: usize,
}

/// Returns whether two rules are the same.
pub fn is_same(rule: Rule, other: Rule) -> bool {
    match rule {
        Rule::Index(index) => matches!(other, Rule::Index(it) if it == index),
        Rule::IndexByEdition(index) => matches!(other, Rule::IndexByEdition(it) if it == index),
        Rule::FirstLiteral => matches!(other, Rule::FirstLiteral),
        Rule::Templates => matches!(other, Rule::Templates),
    }
}

/// Returns whether no rule was found before this one, or the same.
pub fn is_first_or_same(found: Option<Rule>, rule: Rule) -> bool {
    match found {
        Some(found) => is_same(found, rule),
        None => true,
    }
}

/// Returns the call among these, in the order of their names, that has its name at a token.
fn call_named(calls: &[Call], name: usize) -> Option<Call> {
    match calls.binary_search_by_key(&name, |call: &Call| -> usize { call.name }) {
        Ok(position) if calls[position].name == name => Some(calls[position]),
        _ => None,
    }
}

/// Returns the rule of the macro to which a use of the variable hands on, or `None` if the use is
/// no part of a call that is given all further tokens and nothing else.
fn rule_of_use(tokens: &[Token<'_>], calls: &[Call], right: Right, index: usize) -> Option<Rule> {
    if index < 5 {
        return None;
    }
    let call = call_named(calls, index - 5)?;
    if right.start <= call.name
        && call.close < right.end
        && call.close == index + 4
        && is_copy(tokens, right.variable, call.name + 3)
    {
        Some(call.rule)
    } else {
        None
    }
}

/// Returns the rule of the macros to which a right side hands on, or `None` if it uses the variable
/// in another way, or never, or for macros of several rules, or defines a macro.
pub fn rule_of_right(tokens: &[Token<'_>], calls: &[Call], right: Right) -> Option<Rule> {
    let mut found = None;
    for index in right.start..right.end {
        if is_written(tokens, index, "macro_rules") {
            return None;
        }
        if is_use(tokens, right.variable, index) {
            let rule = rule_of_use(tokens, calls, right, index)?;
            if !is_first_or_same(found, rule) {
                return None;
            }
            found = Some(rule);
        }
    }
    found
}
