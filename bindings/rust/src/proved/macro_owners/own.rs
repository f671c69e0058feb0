//! The macros that a file defines, and of which it shows that its calls of their names are theirs.

// Extracted from crates/macro_owners/src/own.rt by tools/extract: not to be edited.
// That source has the contracts, and is proved. That this text means the same is only tested.

use crate::proved::format_calls::{
    calls, closing_token, is_mark, is_standard, token_at, word, Call, Row, Rule, Table,
};
use crate::proved::macro_owners::arms::rule_of_arms;
use crate::proved::macro_owners::given::Given;
use crate::proved::macro_owners::indexed_words::{is_same_word, is_written};
use crate::proved::rust_trees::{Source, Token};
use crate::shim::alloc::AllocError;
use crate::shim::prelude::*;

/// Returns whether a token begins a call of a macro that has another token as its name.
fn is_call_of(tokens: &[Token<'_>], name: usize, index: usize) -> bool {
    is_mark(tokens, index + 1, b'!') && is_same_word(tokens, index, name)
}

/// Returns whether a token is the name of a crate whose macros are known.
fn is_owner(tokens: &[Token<'_>], index: usize) -> bool {
    is_written(tokens, index, "std")
        || is_written(tokens, index, "core")
        || is_written(tokens, index, "alloc")
        || is_written(tokens, index, "log")
        || is_written(tokens, index, "tracing")
        || is_written(tokens, index, "slog")
        || is_written(tokens, index, "anyhow")
        || is_written(tokens, index, "eyre")
}

/// Returns whether no other name that a file gives to a macro is the same word as one of them.
fn is_alone(tokens: &[Token<'_>], names: &[Given], name: usize) -> bool {
    for given in names {
        if given.name != name && is_same_word(tokens, given.name, name) {
            return false;
        }
    }
    true
}

/// Returns whether a token is none of the names of macros that a file defines.
fn is_undefined(tokens: &[Token<'_>], names: &[Given], name: usize) -> bool {
    for given in names {
        let is_definition = is_mark(tokens, given.name.saturating_sub(1), b'!');
        if is_definition && is_same_word(tokens, given.name, name) {
            return false;
        }
    }
    true
}

/// Returns whether a call is of a known macro, if its name stands between two tokens.
fn is_known(tokens: &[Token<'_>], names: &[Given], name: usize, from: usize, to: usize) -> bool {
    if name <= from || to <= name {
        return true;
    }
    let is_path = is_mark(tokens, name.saturating_sub(1), b':');
    (!is_path || is_owner(tokens, name.saturating_sub(3))) && is_undefined(tokens, names, name)
}

/// Returns whether each of these calls whose name stands between two tokens is of a known macro.
fn are_known(
    tokens: &[Token<'_>],
    names: &[Given],
    calls: &[Call],
    from: usize,
    to: usize,
) -> bool {
    for call in calls {
        if !is_known(tokens, names, call.name, from, to) {
            return false;
        }
    }
    true
}

/// Returns whether a token may give a name another macro after its definition.
fn hides(tokens: &[Token<'_>], name: usize, index: usize) -> bool {
    name < index && is_written(tokens, index, "macro_use")
        || is_written(tokens, index, "macro_rules") && is_mark(tokens, index + 2, b'$')
}

/// Returns the token that closes the pair which a token opens, or `end` if that is earlier, or if
/// no pair around the token `index` starts there.
fn inner_end(source: &Source<'_>, opening: usize, index: usize, end: usize) -> usize {
    let Some(close) = source.partner(opening) else {
        return end;
    };
    if index < close && close < end {
        close
    } else {
        end
    }
}

/// Returns the token that closes the innermost delimiters around a token, or the number of tokens.
fn scope_end(source: &Source<'_>, index: usize) -> usize {
    let mut end = source.tokens().len();
    for opening in 0..index {
        end = inner_end(source, opening, index, end);
    }
    end
}

/// Returns whether a token gives the name of a definition no other macro, and begins a call of the
/// name only between two tokens.
fn is_clear(tokens: &[Token<'_>], name: usize, end: usize, index: usize) -> bool {
    if hides(tokens, name, index) {
        return false;
    }
    !is_call_of(tokens, name, index) || name < index && index < end
}

/// Returns whether each call in a file that has this token as its name stands where a definition of
/// the name is in sight, and nothing gives the name another macro.
fn is_in_sight(source: &Source<'_>, name: usize) -> bool {
    let tokens = source.tokens();
    let end = scope_end(source, name);
    for index in 0..tokens.len() {
        if !is_clear(tokens, name, end, index) {
            return false;
        }
    }
    true
}

/// Returns the rule of the macro that has one of the names which a file gives, where these are
/// calls of known macros, or `None` if the file does not show that its calls are of that macro.
fn own_rule(source: &Source<'_>, names: &[Given], calls: &[Call], given: Given) -> Option<Rule> {
    let tokens = source.tokens();
    if given.rule.is_none() {
        return None;
    }
    let opening = given.name + 1;
    let close = closing_token(source, opening)?;
    let rule = rule_of_arms(source, calls, opening, close)?;
    if !are_known(tokens, names, calls, opening, close) {
        return None;
    }
    if !is_alone(tokens, names, given.name) {
        return None;
    }
    if !is_in_sight(source, given.name) {
        return None;
    }
    Some(rule)
}

/// Returns whether a word is no raw one, and is no name of a macro of std with a format string.
fn is_plain(token: &Token<'_>) -> bool {
    token.text.as_bytes() == word(token) && !is_standard(word(token))
}

/// Returns the row of the macro that has one of the names which a file gives, where these are calls
/// of known macros, or `None` if its calls are not read.
fn own_row<'a>(
    source: &Source<'a>,
    names: &[Given],
    calls: &[Call],
    given: Given,
) -> Option<Row<'a>> {
    let token = token_at(source.tokens(), given.name)?;
    if !is_plain(&token) {
        return None;
    }
    let rule = own_rule(source, names, calls, given)?;
    Some(Row {
        name: token.text,
        rule,
    })
}

/// Returns the macros of a file whose calls it shows to be theirs, with the rules by which these
/// are read, where it gives these names to macros and the table has known macros.
pub fn own_rows<'a>(
    source: &Source<'a>,
    names: &[Given],
    table: &Table<'_>,
) -> Result<Vec<Row<'a>>, AllocError> {
    let calls = calls(source, table)?;
    let mut rows = Vec::new();
    for given in names {
        if let Some(row) = own_row(source, names, &calls, *given) {
            rows.push(row);
        }
    }
    Ok(rows)
}
