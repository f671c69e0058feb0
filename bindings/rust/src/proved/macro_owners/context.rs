//! What stands before a token, as far as it matters to names of macros.

// Extracted from crates/macro_owners/src/context.rt by tools/extract: not to be edited.
// That source has the contracts, and is proved. That this text means the same is only tested.

use crate::proved::format_calls::is_word;
use crate::proved::macro_owners::names::is_hygienic;
use crate::proved::macro_owners::words::{is_mark, is_named, is_notable, word_of};
use crate::proved::rust_trees::{Side, Token};

/// What stands before a token.
#[derive(Clone, Copy)]
pub struct Context<'a> {
    /// The token before the last one.
    pub previous: Option<Token<'a>>,
    /// The last token.
    pub last: Option<Token<'a>>,
    /// Whether an import begins, and its crate is still to come.
    pub starts_import: bool,
    /// The first token of the import that is not over yet.
    pub import_root: Option<Token<'a>>,
    /// The first word of the path that ends with the last token.
    pub path_root: Option<Token<'a>>,
    /// Whether the last token is a word of this path, and not the first one.
    pub goes_on: bool,
    /// Whether `macro_use` was read in the item that is not over yet.
    pub uses_macros: bool,
    /// Whether a macro that the file defines is exported.
    pub exports: bool,
    /// Whether the last token is the name of a macro that `macro_rules!` defines.
    pub defines: bool,
    /// The number of delimiters that are open, from that of a macro on which may define others.
    pub depth: usize,
}

/// Returns what stands before the first token of a file.
pub fn first_context<'a>() -> Context<'a> {
    Context {
        previous: None,
        last: None,
        starts_import: false,
        import_root: None,
        path_root: None,
        goes_on: false,
        uses_macros: false,
        exports: false,
        defines: false,
        depth: 0,
    }
}

/// Returns whether a token goes on with the path before it.
#[inline(always)]
fn goes_on(context: Context<'_>, token: Token<'_>) -> bool {
    is_word(&token)
        && is_mark(context.last, b':')
        && is_mark(context.previous, b':')
        && context.path_root.is_some()
}

/// Returns the first word of the path that ends with a token, or `None` if none does.
#[inline(always)]
fn path_after<'a>(context: Context<'a>, token: Token<'a>) -> Option<Token<'a>> {
    if goes_on(context, token) || is_mark(Some(token), b':') {
        context.path_root
    } else if is_word(&token) {
        Some(token)
    } else {
        None
    }
}

/// Returns the first token of the import that goes on after a token, or `None` if none does.
fn import_after<'a>(context: Context<'a>, token: Token<'a>) -> Option<Token<'a>> {
    if is_named(Some(token), "use") || is_mark(Some(token), b';') {
        return None;
    }
    if !context.starts_import {
        return context.import_root;
    }
    if is_mark(Some(token), b':') || is_mark(Some(token), b'<') {
        return None;
    }
    Some(token)
}

/// Returns whether a delimiter after this opens the arguments of a macro that may define others, or
/// the arms of a definition.
#[inline(always)]
fn opens_macro(context: Context<'_>) -> bool {
    let name = word_of(context.previous);
    context.defines || is_mark(context.last, b'!') && name != b"".as_slice() && !is_hygienic(name)
}

/// Returns the number of delimiters that are open after a token.
#[inline(always)]
fn depth_after(context: Context<'_>, token: Token<'_>) -> usize {
    match token.side() {
        Side::Opens(_) if context.depth > 0 => context.depth.saturating_add(1),
        Side::Opens(_) if opens_macro(context) => 1,
        Side::Opens(_) => 0,
        Side::Closes(_) => context.depth.saturating_sub(1),
        Side::Neither => context.depth,
    }
}

/// Returns whether an import begins with a token or goes on to begin after it.
fn starts_import(context: Context<'_>, token: Token<'_>) -> bool {
    is_named(Some(token), "use") || context.starts_import && is_mark(Some(token), b':')
}

/// Returns whether a token ends an item or begins its body.
fn ends_item(token: Token<'_>) -> bool {
    is_mark(Some(token), b';') || is_mark(Some(token), b'{') || is_mark(Some(token), b'}')
}

/// Returns whether `macro_use` was read in the item that goes on after a token.
fn uses_macros(context: Context<'_>, token: Token<'_>) -> bool {
    is_named(Some(token), "macro_use") || context.uses_macros && !ends_item(token)
}

/// Returns whether `macro_export` was read with this token.
#[inline]
fn exports(context: Context<'_>, token: Token<'_>) -> bool {
    context.exports || is_named(Some(token), "macro_export")
}

/// Returns whether the next token is the name of a macro that `macro_rules!` defines.
#[inline]
pub fn defines(context: Context<'_>) -> bool {
    is_mark(context.last, b'!') && is_named(context.previous, "macro_rules")
}

impl<'a> Context<'a> {
    /// Returns what stands before the token after this one.
    fn after(self, token: Token<'a>) -> Context<'a> {
        Context {
            previous: self.last,
            last: Some(token),
            starts_import: starts_import(self, token),
            import_root: import_after(self, token),
            path_root: path_after(self, token),
            goes_on: goes_on(self, token),
            uses_macros: uses_macros(self, token),
            exports: exports(self, token),
            defines: defines(self),
            depth: depth_after(self, token),
        }
    }

    /// Returns whether a plain token after this only spoils names.
    pub fn is_quiet(&self) -> bool {
        !(is_named(self.previous, "as")
            || is_notable(self.last)
            || self.starts_import
            || self.uses_macros
            || self.defines)
    }

    /// Counts the delimiters that are open after a token, which opens no macro.
    #[inline(always)]
    fn count_delimiter(&mut self, token: Token<'a>) {
        if self.depth == 0 {
            return;
        }
        self.depth = depth_after(*self, token);
    }

    /// Goes on with the path before a token, ends it, or begins another one with the token.
    #[inline(always)]
    fn follow_path(&mut self, token: Token<'a>) {
        if is_word(&token) {
            self.goes_on = goes_on(*self, token);
            if !self.goes_on {
                self.path_root = Some(token);
            }
        } else {
            self.goes_on = false;
            if !is_mark(Some(token), b':') {
                self.path_root = None;
            }
        }
    }

    /// Passes a plain token where it only spoils names.
    #[inline(always)]
    pub fn pass_quietly(&mut self, token: Token<'a>) {
        self.count_delimiter(token);
        self.follow_path(token);
        self.previous = self.last;
        self.last = Some(token);
    }

    /// Passes a token.
    #[inline]
    pub fn pass(&mut self, token: Token<'a>) {
        *self = self.after(token);
    }
}
