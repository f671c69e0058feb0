//! Where arguments end, and whether their number is known.

// Extracted from crates/format_calls/src/extents.rt by tools/extract: not to be edited.
// That source has the contracts, and is proved. That this text means the same is only tested.

use crate::proved::format_calls::marks::{is_mark, token_at};
use crate::proved::format_calls::split::{after_tree, is_named};
use crate::proved::rust_trees::{is_opening, Source, Token};

/// Returns whether a token opens a pair.
fn opens_at(tokens: &[Token<'_>], index: usize) -> bool {
    match token_at(tokens, index) {
        Some(token) => is_opening(token.side()),
        None => false,
    }
}

/// Returns whether a token among arguments says that their number is not known: a macro repeats
/// some of them or names one, or `;` begins something else.
fn is_uncounted(tokens: &[Token<'_>], index: usize) -> bool {
    if is_mark(tokens, index, b'$') {
        return opens_at(tokens, index + 1) || is_named(tokens, index + 1);
    }
    if is_mark(tokens, index, b'#') {
        return !is_mark(tokens, index + 1, b'[') && !is_mark(tokens, index + 1, b'!');
    }
    is_mark(tokens, index, b';')
}

/// Returns whether a token ends arguments: it is `;`, and `ends_early` says that one does.
#[inline]
fn is_stop(tokens: &[Token<'_>], index: usize, ends_early: bool) -> bool {
    ends_early && is_mark(tokens, index, b';')
}

/// Where arguments end, and whether their number is known.
#[derive(Clone, Copy)]
pub struct Extent {
    /// The index of the token after them.
    pub end: usize,
    /// Whether their number is known: no macro repeats some of them, as `$(..)*` does and `#x` in
    /// `quote!`, or names one, as `$name = x` does, and no `;` stands among them.
    pub is_counted: bool,
}

/// Returns where the arguments end that start at a token between delimiters: at the delimiter that
/// closes the pair or, where `ends_early` says so, at the first `;` among them.
pub fn extent_of(
    source: &Source<'_>,
    ends_early: bool,
    opening: usize,
    from: usize,
    close: usize,
) -> Extent {
    let tokens = source.tokens();
    let mut has_uncounted = false;
    let mut end = from;
    while end < close && !is_stop(tokens, end, ends_early) {
        has_uncounted = has_uncounted || is_uncounted(tokens, end);
        end = after_tree(source, end);
    }
    Extent {
        end,
        is_counted: !has_uncounted,
    }
}
