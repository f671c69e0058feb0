//! The arms of a definition.

// Extracted from crates/macro_owners/src/arms.rt by tools/extract: not to be edited.
// That source has the contracts, and is proved. That this text means the same is only tested.

use crate::proved::format_calls::{closing_token, is_mark, Call, Rule};
use crate::proved::macro_owners::lefts::argument_count;
use crate::proved::macro_owners::rights::{is_first_or_same, rule_of_right, Right};
use crate::proved::rust_trees::Source;

/// An arm, `(left) => {right}`: the indexes of its delimiters.
#[derive(Clone, Copy)]
pub struct Arm {
    /// The delimiter that opens the left side.
    pub left_opening: usize,
    /// The one that closes it. `=` and `>` follow, and the one that opens the right side.
    pub left_close: usize,
    /// The one that closes the right side.
    pub right_close: usize,
}

/// Returns the arm that starts at a token, or `None` if none does.
fn arm_at(source: &Source<'_>, index: usize) -> Option<Arm> {
    let tokens = source.tokens();
    let left_close = closing_token(source, index)?;
    if !(is_mark(tokens, left_close + 1, b'=') && is_mark(tokens, left_close + 2, b'>')) {
        return None;
    }
    let right_close = closing_token(source, left_close + 3)?;
    Some(Arm {
        left_opening: index,
        left_close,
        right_close,
    })
}

/// Returns the rule of a macro that takes arguments and hands on the tokens after them to a macro
/// of a rule, or `None` if that is no rule.
fn shifted(rule: Rule, count: usize) -> Option<Rule> {
    match rule {
        Rule::Index(index) => Some(Rule::Index(index.checked_add(count)?)),
        Rule::IndexByEdition(index) => Some(Rule::IndexByEdition(index.checked_add(count)?)),
        Rule::FirstLiteral if count == 0 => Some(Rule::FirstLiteral),
        _ => None,
    }
}

/// Returns the rule by which an arm reads its tokens, or `None` if it is not of this form.
fn rule_of_arm(source: &Source<'_>, calls: &[Call], arm: Arm) -> Option<Rule> {
    let tokens = source.tokens();
    let count = argument_count(tokens, arm.left_opening + 1, arm.left_close)?;
    let right = Right {
        variable: arm.left_close - 5,
        start: arm.left_close + 4,
        end: arm.right_close,
    };
    let rule = rule_of_right(tokens, calls, right)?;
    shifted(rule, count)
}

/// Returns the rule that was found in arms so far with one arm more, or `None` if that reads its
/// tokens by no rule or another one. An arm that takes no tokens changes nothing.
fn joined_rule(
    source: &Source<'_>,
    calls: &[Call],
    found: Option<Rule>,
    arm: Arm,
) -> Option<Option<Rule>> {
    if arm.left_close <= arm.left_opening + 1 {
        return Some(found);
    }
    let rule = rule_of_arm(source, calls, arm)?;
    if is_first_or_same(found, rule) {
        Some(Some(rule))
    } else {
        None
    }
}

/// Returns the rule by which each arm between two delimiters reads its tokens, or `None` if there
/// is none.
pub fn rule_of_arms(
    source: &Source<'_>,
    calls: &[Call],
    opening: usize,
    close: usize,
) -> Option<Rule> {
    let tokens = source.tokens();
    let mut found = None;
    let mut from = opening + 1;
    while from < close {
        let arm = arm_at(source, from)?;
        if arm.right_close >= close {
            return None;
        }
        found = joined_rule(source, calls, found, arm)?;
        if arm.right_close + 1 == close {
            return found;
        }
        if !is_mark(tokens, arm.right_close + 1, b';') {
            return None;
        }
        from = arm.right_close + 2;
    }
    found
}
