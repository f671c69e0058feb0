//! The facts of files about names of macros.

// Extracted from crates/macro_owners/src/facts.rt by tools/extract: not to be edited.
// That source has the contracts, and is proved. That this text means the same is only tested.

use crate::proved::macro_owners::context::{defines, first_context, Context};
use crate::proved::macro_owners::names::{
    is_error_crate, is_harmless, is_log_crate, is_owner, is_std_crate, kept_name, owns,
};
use crate::proved::macro_owners::words::{is_mark, is_named, is_notable, word_of};
use crate::proved::rust_trees::{Token, Tokens};
use crate::shim::alloc::AllocError;
use alloc::collections::BTreeSet;

/// What the files of a package say about names of macros.
pub struct Facts {
    /// The names that they give in another way than their owners, and marks: `$` for every name,
    /// `*` for a glob of another crate, `defmt` for one of that crate, `crate` for one of the own
    /// crate, and `no_std`.
    pub given: BTreeSet<&'static [u8]>,
    /// The names that they import from crates that own them.
    pub imported: BTreeSet<&'static [u8]>,
    /// The crates of which they use all macros.
    pub used: BTreeSet<&'static [u8]>,
    /// The names whose calls may be of another macro in the file that they stand in.
    pub spoiled: BTreeSet<&'static [u8]>,
}

/// Returns whether a token may end a name of an import.
fn is_end(token: Token<'_>) -> bool {
    let token = Some(token);
    is_mark(token, b',') || is_mark(token, b';') || is_mark(token, b'}')
}

/// Returns whether the last word is another name for what is imported.
#[inline]
fn is_renamed(context: Context<'_>) -> bool {
    is_named(context.previous, "as")
}

/// Returns whether the import of the last word gives no name to a macro of another owner.
fn is_plain_import(context: Context<'_>) -> bool {
    let root = word_of(context.import_root);
    let name = word_of(context.last);
    !is_renamed(context) && (owns(root, name) || is_std_crate(root) || root == name)
}

/// Returns the mark of a glob of a path with this first word, or nothing if it has none.
fn glob_mark(root: &[u8]) -> &'static [u8] {
    if is_std_crate(root) || root == b"self".as_slice() || root == b"super".as_slice() {
        b""
    } else if root == b"crate".as_slice() {
        b"crate"
    } else if root == b"defmt".as_slice() {
        b"defmt"
    } else {
        b"*"
    }
}

/// Returns the name that a token of an import gives, or nothing.
fn given_by_import<'a>(context: Context<'a>, token: Token<'a>) -> &'a [u8] {
    if is_mark(context.last, b'$') && !is_named(Some(token), "crate") {
        b"$"
    } else if is_mark(Some(token), b'*') {
        glob_mark(word_of(context.import_root))
    } else if is_end(token) && !is_plain_import(context) {
        word_of(context.last)
    } else {
        b""
    }
}

/// Returns a word, or nothing if it is no name of a crate that owns macros.
#[inline]
fn owner_name(word: &[u8]) -> &[u8] {
    if is_owner(word) {
        word
    } else {
        b""
    }
}

/// Returns whether the next word is a crate whose macros are all used.
fn uses_crate(context: Context<'_>) -> bool {
    context.uses_macros && is_named(context.last, "crate") && is_named(context.previous, "extern")
}

/// Returns whether the macros of a crate of this name are known.
#[inline]
fn is_known_crate(word: &[u8]) -> bool {
    is_harmless(word) || is_log_crate(word) || is_error_crate(word)
}

/// Returns the mark of an attribute of a file, or nothing.
fn attribute_mark(word: &[u8]) -> &'static [u8] {
    if word == b"no_std".as_slice() || word == b"no_core".as_slice() {
        b"no_std"
    } else if word == b"no_implicit_prelude".as_slice() {
        b"$"
    } else {
        b""
    }
}

/// Returns the name that a token gives outside of definitions and imports, or nothing.
fn given_by_item<'a>(context: Context<'a>, token: Token<'a>) -> &'a [u8] {
    let name = word_of(Some(token));
    if is_end(token) && is_renamed(context) {
        owner_name(word_of(context.last))
    } else if !uses_crate(context) {
        attribute_mark(name)
    } else if is_known_crate(name) {
        b""
    } else {
        b"$"
    }
}

/// Returns whether an import is not over yet.
#[inline]
fn is_import(context: Context<'_>) -> bool {
    context.import_root.is_some()
}

/// Returns the name that a token gives outside of definitions, or nothing.
fn given_outside<'a>(context: Context<'a>, token: Token<'a>) -> &'a [u8] {
    if is_import(context) {
        given_by_import(context, token)
    } else {
        given_by_item(context, token)
    }
}

/// Returns the name that a token defines by `macro_rules!`.
fn defined_name<'a>(token: Token<'a>) -> &'a [u8] {
    if is_mark(Some(token), b'$') {
        b"$"
    } else {
        word_of(Some(token))
    }
}

/// Returns the name that a token gives, or nothing.
fn given_name<'a>(context: Context<'a>, token: Token<'a>) -> &'a [u8] {
    if defines(context) {
        defined_name(token)
    } else if is_named(context.last, "macro") {
        word_of(Some(token))
    } else if is_named(context.last, "mod") {
        owner_name(word_of(Some(token)))
    } else {
        given_outside(context, token)
    }
}

/// Returns whether a token ends an import of the last word from a crate that owns it.
fn is_owned_import(context: Context<'_>, token: Token<'_>) -> bool {
    is_import(context)
        && is_end(token)
        && !is_renamed(context)
        && owns(word_of(context.import_root), word_of(context.last))
}

/// Returns whether the last word has a path of the crate that owns it.
fn has_owner_path(context: Context<'_>) -> bool {
    context.goes_on && owns(word_of(context.path_root), word_of(context.last))
}

/// Returns the name that a token imports from a crate that owns it, or nothing.
fn imported_name<'a>(context: Context<'a>, token: Token<'a>) -> &'a [u8] {
    if is_owned_import(context, token) {
        word_of(context.last)
    } else if is_mark(Some(token), b'!') && has_owner_path(context) {
        word_of(context.last)
    } else {
        b""
    }
}

/// Returns the crate of which `macro_use` before a token gives all macros, or nothing.
fn used_name<'a>(context: Context<'a>, token: Token<'a>) -> &'a [u8] {
    if uses_crate(context) {
        owner_name(word_of(Some(token)))
    } else {
        b""
    }
}

/// Returns whether a call of the last word may be of another macro.
#[inline(always)]
fn is_other_call(context: Context<'_>) -> bool {
    let name = word_of(context.last);
    context.goes_on && !owns(word_of(context.path_root), name)
        || context.depth > 0 && context.exports
}

/// Returns whether the last word stands by itself, before this token.
#[inline(always)]
fn is_bare(context: Context<'_>, token: Token<'_>) -> bool {
    let previous = context.previous;
    !is_mark(Some(token), b'(')
        && !(is_mark(previous, b'.') || is_mark(previous, b':') || is_mark(previous, b'$'))
}

/// Returns the name that may be another macro's in this file, or nothing.
#[inline(always)]
fn spoiled_name<'a>(context: Context<'a>, token: Token<'a>) -> &'a [u8] {
    let is_call = is_mark(Some(token), b'!');
    let is_spoiled = if is_call {
        is_other_call(context)
    } else {
        context.depth > 0 && is_bare(context, token)
    };
    if is_spoiled {
        word_of(context.last)
    } else {
        b""
    }
}

/// Adds a name to a set if facts are kept about it.
fn put(names: &mut BTreeSet<&'static [u8]>, word: &[u8]) -> Result<(), AllocError> {
    if let Some(name) = kept_name(word) {
        names.insert(name);
    }
    Ok(())
}

/// Adds the facts of a token.
fn add_token(facts: &mut Facts, context: Context<'_>, token: Token<'_>) -> Result<(), AllocError> {
    put(&mut facts.given, given_name(context, token))?;
    put(&mut facts.imported, imported_name(context, token))?;
    put(&mut facts.used, used_name(context, token))?;
    put(&mut facts.spoiled, spoiled_name(context, token))?;
    Ok(())
}

/// Returns whether a token is not notable, and no name of an import ends there.
#[inline(always)]
fn is_plain(context: Context<'_>, token: Token<'_>) -> bool {
    let may_end_name = is_import(context)
        && (is_end(token) || is_mark(Some(token), b'*') || is_mark(context.last, b'$'));
    !(is_notable(Some(token)) || may_end_name)
}

/// Adds the name that a plain token spoils.
#[inline(always)]
fn put_spoiled(
    names: &mut BTreeSet<&'static [u8]>,
    context: Context<'_>,
    token: Token<'_>,
) -> Result<(), AllocError> {
    if context.depth == 0 {
        return Ok(());
    }
    put(names, spoiled_name(context, token))
}

/// Adds the facts of a token and passes it, where `was_quiet` may be true only if a plain token
/// only spoils names. Returns whether the same is known of the next token, or `Err` if an
/// allocation fails.
#[inline(always)]
fn pass_token<'a>(
    facts: &mut Facts,
    context: &mut Context<'a>,
    token: Token<'a>,
    was_quiet: bool,
) -> Result<bool, AllocError> {
    if was_quiet && is_plain(*context, token) {
        put_spoiled(&mut facts.spoiled, *context, token)?;
        context.pass_quietly(token);
        return Ok(true);
    }
    add_token(facts, *context, token)?;
    context.pass(token);
    Ok(context.is_quiet())
}

impl Facts {
    /// Returns those of no files.
    pub(crate) fn new() -> Facts {
        Facts {
            given: BTreeSet::new(),
            imported: BTreeSet::new(),
            used: BTreeSet::new(),
            spoiled: BTreeSet::new(),
        }
    }

    /// Returns these with a name more that the package gives.
    pub(crate) fn with_name(self, name: &str) -> Result<Facts, AllocError> {
        let mut facts = self;
        put(&mut facts.given, name.as_bytes())?;
        Ok(facts)
    }

    /// Returns these with the facts of a file more.
    pub(crate) fn with_file(self, text: &str) -> Result<Facts, AllocError> {
        let mut facts = self;
        let mut rest = Tokens::new(text);
        let mut context = first_context();
        let mut is_quiet = true;
        while let Some(token) = rest.next() {
            is_quiet = pass_token(&mut facts, &mut context, token, is_quiet)?;
        }
        Ok(facts)
    }
}
