//! The macros that a file defines by `macro_rules!`, and calls of others than those of the table.

// Extracted from crates/source_lint/src/macros.rt by tools/extract: not to be edited.
// That source has the contracts, and is proved. That this text means the same is only tested.

use crate::proved::asm_lint::appends_newline;
use crate::proved::call_forms::is_foreign;
use crate::proved::format_calls::{is_mark_of, is_of_crates, is_word, token_at, word, Call, Rule};
use crate::proved::rust_tokens::Kind;
use crate::proved::rust_trees::{Token, Tokens};
use crate::proved::source_report::CallReading;
use crate::shim::alloc::AllocError;
use crate::shim::prelude::*;
use alloc::collections::BTreeSet;

/// A macro that a file defines, and of which the table says how its calls are read.
#[derive(Clone, Copy)]
pub struct OwnMacro<'a> {
    /// Its name.
    pub name: &'a str,
    /// Whether it appends a newline to its format string.
    pub appends_newline: bool,
}

/// A file, with what its calls are read by.
#[derive(Clone, Copy)]
pub struct File<'s, 'a> {
    /// The text.
    pub text: &'a str,
    /// The names of the macros that it defines.
    pub macros: &'s BTreeSet<&'a [u8]>,
    /// Those of these macros of which the table says how their calls are read.
    pub own_macros: &'s [OwnMacro<'s>],
    /// Whether its edition is 2021 or a later one.
    pub is_from_2021: bool,
}

/// Returns whether a token is the word `macro_rules`.
fn is_macro_rules(token: &Token<'_>) -> bool {
    matches!(token.kind, Kind::Ident) && token.text == "macro_rules"
}

/// Returns whether two tokens, one after the other, are `macro_rules` and `!`.
fn begins_definition(word: Option<Token<'_>>, bang: Option<Token<'_>>) -> bool {
    match (word, bang) {
        (Some(word), Some(bang)) => is_macro_rules(&word) && is_mark_of(&bang, b'!'),
        _ => false,
    }
}

/// Adds the name of the macro that a token defines after two others, if it does.
fn put_definition<'a>(
    names: &mut BTreeSet<&'a [u8]>,
    previous: Option<Token<'a>>,
    last: Option<Token<'a>>,
    token: &Token<'a>,
) -> Result<(), AllocError> {
    if begins_definition(previous, last) && is_word(token) {
        names.insert(word(token));
    }
    Ok(())
}

/// Returns the names of the macros that a file defines by `macro_rules!`, without `r#`.
pub fn macro_names<'a>(text: &'a str) -> Result<BTreeSet<&'a [u8]>, AllocError> {
    let mut names = BTreeSet::new();
    if !text.has_text("macro_rules") {
        return Ok(names);
    }
    let mut rest = Tokens::new(text);
    let mut previous = None;
    let mut last = None;
    while let Some(token) = rest.next() {
        put_definition(&mut names, previous, last, &token)?;
        previous = last;
        last = Some(token);
    }
    Ok(names)
}

/// Returns whether a word is one of these names.
#[inline]
fn is_defined<'a>(names: &BTreeSet<&'a [u8]>, word: &'a [u8]) -> bool {
    names.contains(&word)
}

/// Returns whether the first of these macros that has a name appends a newline to its format
/// string, or `None` if none has it.
fn newline_by(own_macros: &[OwnMacro<'_>], name: &[u8]) -> Option<bool> {
    for own_macro in own_macros {
        if own_macro.name.as_bytes() == name {
            return Some(own_macro.appends_newline);
        }
    }
    None
}

/// Returns whether the table says how calls of the macro of a name are read, which a file defines.
#[inline]
fn is_own(file: File<'_, '_>, name: &[u8]) -> bool {
    newline_by(file.own_macros, name).is_some()
}

/// Returns whether a macro of this name appends a newline to its format string in a file.
pub(crate) fn newline_of(file: File<'_, '_>, name: &[u8]) -> bool {
    match newline_by(file.own_macros, name) {
        Some(appended_newline) => appended_newline,
        None => appends_newline(name),
    }
}

/// Returns the name of a call, without `r#`.
pub fn name_at<'a>(tokens: &[Token<'a>], name: usize) -> &'a [u8] {
    match token_at(tokens, name) {
        Some(token) => word(&token),
        None => b"",
    }
}

/// Returns the offset of the name of a call in its file.
fn offset_at(tokens: &[Token<'_>], name: usize) -> usize {
    match token_at(tokens, name) {
        Some(token) => token.start,
        None => 0,
    }
}

/// Returns whether a macro with this rule and this name is one of log, tracing or slog, if no path
/// says otherwise.
#[inline]
fn is_log(rule: Rule, name: &[u8]) -> bool {
    matches!(rule, Rule::FirstLiteral) && is_of_crates(name)
}

/// Returns the reading of a call whose macro is another one than that of the table, or `None` if it
/// is that one, as far as the file shows.
pub fn other_macro<'a>(
    file: File<'_, 'a>,
    tokens: &[Token<'a>],
    call: &Call,
) -> Option<CallReading> {
    let name = name_at(tokens, call.name);
    if is_defined(file.macros, name) && !is_own(file, name) {
        return Some(CallReading::RedefinedMacro);
    }
    if is_log(call.rule, name) && is_foreign(file.text, offset_at(tokens, call.name)) {
        return Some(CallReading::ForeignMacro);
    }
    None
}
