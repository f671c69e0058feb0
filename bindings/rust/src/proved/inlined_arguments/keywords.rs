//! The keywords of all editions.

// Extracted from crates/inlined_arguments/src/keywords.rt by tools/extract: not to be edited.
// That source has the contracts, and is proved. That this text means the same is only tested.

/// Returns whether a word is a keyword that stands in expressions.
#[inline(never)]
fn is_in_expressions(word: &str) -> bool {
    word == "as"
        || word == "async"
        || word == "await"
        || word == "break"
        || word == "continue"
        || word == "crate"
        || word == "dyn"
        || word == "false"
        || word == "move"
        || word == "return"
        || word == "Self"
        || word == "super"
        || word == "true"
        || word == "unsafe"
        || word == "_"
}

/// Returns whether a word is a keyword that begins or joins statements and branches.
#[inline(never)]
fn is_in_statements(word: &str) -> bool {
    word == "else"
        || word == "for"
        || word == "if"
        || word == "in"
        || word == "let"
        || word == "loop"
        || word == "match"
        || word == "mut"
        || word == "ref"
        || word == "while"
}

/// Returns whether a word is a keyword that stands in items.
#[inline(never)]
fn is_in_items(word: &str) -> bool {
    word == "const"
        || word == "enum"
        || word == "extern"
        || word == "fn"
        || word == "impl"
        || word == "mod"
        || word == "pub"
        || word == "static"
        || word == "struct"
        || word == "trait"
        || word == "type"
        || word == "use"
        || word == "where"
}

/// Returns whether a word is a keyword without a use.
#[inline(never)]
fn is_reserved(word: &str) -> bool {
    word == "abstract"
        || word == "become"
        || word == "box"
        || word == "do"
        || word == "final"
        || word == "gen"
        || word == "macro"
        || word == "override"
        || word == "priv"
        || word == "try"
        || word == "typeof"
        || word == "unsized"
        || word == "virtual"
        || word == "yield"
}

/// Returns whether a word is a keyword of some edition, except `self`.
pub(crate) fn is_keyword(word: &str) -> bool {
    is_in_expressions(word) || is_in_statements(word) || is_in_items(word) || is_reserved(word)
}
