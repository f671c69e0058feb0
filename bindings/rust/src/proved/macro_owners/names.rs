//! The names that matter: macros of tables, the crates that own them, and crates that own none.

// Extracted from crates/macro_owners/src/names.rt by tools/extract: not to be edited.
// That source has the contracts, and is proved. That this text means the same is only tested.

use crate::proved::format_calls::{is_of_crates, is_standard};

/// The names that facts are kept about: macros, crates that own macros, and the marks of
/// [`Facts`](crate::Facts).
const KEPT: [&str; 48] = [
    "format",
    "format_args",
    "print",
    "println",
    "eprint",
    "eprintln",
    "write",
    "writeln",
    "panic",
    "unreachable",
    "todo",
    "unimplemented",
    "assert",
    "debug_assert",
    "assert_eq",
    "assert_ne",
    "debug_assert_eq",
    "debug_assert_ne",
    "assert_matches",
    "debug_assert_matches",
    "asm",
    "global_asm",
    "naked_asm",
    "error",
    "warn",
    "info",
    "debug",
    "trace",
    "crit",
    "log",
    "event",
    "anyhow",
    "eyre",
    "format_err",
    "bail",
    "ensure",
    "std",
    "core",
    "alloc",
    "tracing",
    "slog",
    "color_eyre",
    "failure",
    "$",
    "*",
    "crate",
    "no_std",
    "defmt",
];

/// Crates none of whose exported macros has a name of a table.
const HARMLESS: [&str; 30] = [
    "std",
    "core",
    "alloc",
    "self",
    "serde",
    "serde_derive",
    "serde_json",
    "lazy_static",
    "bitflags",
    "cfg_if",
    "maplit",
    "quote",
    "syn",
    "memoffset",
    "static_assertions",
    "scopeguard",
    "smallvec",
    "quick_error",
    "libc",
    "synstructure",
    "arrayref",
    "criterion",
    "derive_builder",
    "doc_comment",
    "generic_array",
    "pest",
    "pest_derive",
    "quickcheck",
    "typenum",
    "zerocopy",
];

/// Macros that expand their arguments where they stand and define no macro, beside those of tables.
const HYGIENIC: [&str; 3] = ["vec", "dbg", "matches"];

/// Words from which facts may come.
const NOTABLE: [&str; 9] = [
    "use",
    "as",
    "mod",
    "macro",
    "macro_use",
    "macro_export",
    "no_std",
    "no_core",
    "no_implicit_prelude",
];

/// Macros that only the prelude of std has, not that of core.
const STD_ALONE: [&str; 5] = ["format", "print", "println", "eprint", "eprintln"];

/// Macros of std that no prelude has.
const UNIMPORTED: [&str; 5] = [
    "assert_matches",
    "debug_assert_matches",
    "asm",
    "global_asm",
    "naked_asm",
];

/// The crates that a file sees as std's.
const STD_CRATES: [&str; 3] = ["std", "core", "alloc"];

/// The crates that own the macros of logs.
const LOG_CRATES: [&str; 3] = ["log", "tracing", "slog"];

/// The macros of logs.
const LOG_NAMES: [&str; 8] = [
    "error", "warn", "info", "debug", "trace", "crit", "log", "event",
];

/// The crates that own the macros of errors.
const ERROR_CRATES: [&str; 4] = ["anyhow", "eyre", "color_eyre", "failure"];

/// Returns the one of these names that a word is, or `None` if it is none of them.
fn find_name(names: &[&'static str], word: &[u8]) -> Option<&'static [u8]> {
    for name in names {
        if word == name.as_bytes() {
            return Some(name.as_bytes());
        }
    }
    None
}

/// Returns whether a word is one of these names.
#[inline]
fn is_one_of(names: &[&'static str], word: &[u8]) -> bool {
    find_name(names, word).is_some()
}

/// Returns the name that a word is, or `None` if no facts are kept about it.
#[inline]
pub fn kept_name(word: &[u8]) -> Option<&'static [u8]> {
    if word.is_empty() {
        return None;
    }
    find_name(&KEPT, word)
}

/// Returns whether `macro_use` of a crate of this name gives no name of a table.
#[inline]
pub fn is_harmless(word: &[u8]) -> bool {
    is_one_of(&HARMLESS, word)
}

/// Returns whether a macro of this name expands its arguments where they stand, and defines none.
pub fn is_hygienic(word: &[u8]) -> bool {
    is_standard(word) || is_of_crates(word) || is_one_of(&HYGIENIC, word)
}

/// Returns whether a notable word may begin with a byte.
#[inline(always)]
fn begins_notable(byte: u8) -> bool {
    byte == b'u' || byte == b'a' || byte == b'm' || byte == b'n'
}

/// Returns whether facts may come from this word.
#[inline(always)]
pub fn is_notable_word(word: &[u8]) -> bool {
    if word.is_empty() {
        return false;
    }
    if !begins_notable(word[0]) {
        return false;
    }
    is_one_of(&NOTABLE, word)
}

/// Returns whether a macro of this name is in the prelude of std, but not in that of core.
#[inline]
pub fn is_std_alone(word: &[u8]) -> bool {
    is_one_of(&STD_ALONE, word)
}

/// Returns whether this is the name of a macro of std that no prelude has.
#[inline]
fn is_unimported(word: &[u8]) -> bool {
    is_one_of(&UNIMPORTED, word)
}

/// Returns whether a macro of this name is in the prelude of std.
#[inline]
pub fn is_prelude(word: &[u8]) -> bool {
    is_standard(word) && !is_unimported(word)
}

/// Returns whether a crate of this name is std, or a part of it.
#[inline]
pub fn is_std_crate(word: &[u8]) -> bool {
    is_one_of(&STD_CRATES, word)
}

/// Returns whether a crate of this name owns the macros of logs.
#[inline]
pub fn is_log_crate(word: &[u8]) -> bool {
    is_one_of(&LOG_CRATES, word)
}

/// Returns whether this is the name of a macro of logs.
#[inline]
pub fn is_log_name(word: &[u8]) -> bool {
    is_one_of(&LOG_NAMES, word)
}

/// Returns whether a crate of this name owns the macros of errors.
#[inline]
pub fn is_error_crate(word: &[u8]) -> bool {
    is_one_of(&ERROR_CRATES, word)
}

/// Returns whether a crate of this name owns macros of a table.
#[inline]
pub fn is_owner(word: &[u8]) -> bool {
    is_std_crate(word) || is_log_crate(word) || is_error_crate(word)
}

/// Returns whether this is the name of a macro of errors.
#[inline]
pub fn is_error_name(word: &[u8]) -> bool {
    is_of_crates(word) && !is_log_name(word)
}

/// Returns whether a crate owns the macro of a name.
pub fn owns(owner: &[u8], name: &[u8]) -> bool {
    if is_std_crate(owner) {
        is_standard(name)
    } else if is_log_crate(owner) {
        is_log_name(name)
    } else {
        is_error_crate(owner) && is_error_name(name)
    }
}
