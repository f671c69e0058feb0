//! The parts of a file that have calls.

// Extracted from crates/format_calls/src/parts.rt by tools/extract: not to be edited.
// That source has the contracts, and is proved. That this text means the same is only tested.

use crate::proved::format_calls::marks::{is_mark_of, is_word, word};
use crate::proved::format_calls::table::{rule_of, Row, Table};
use crate::proved::rust_trees::{is_opening, Balance, Source, Token, Tokens};
use crate::shim::alloc::AllocError;

/// Returns whether three tokens are a word of a table, `!` and an opening delimiter.
#[inline(always)]
pub fn opens_call(
    rows: &[Row<'_>],
    name: &Token<'_>,
    bang: &Token<'_>,
    opening: &Token<'_>,
) -> bool {
    is_mark_of(bang, b'!')
        && is_opening(opening.side())
        && is_word(name)
        && rule_of(rows, word(name)).is_some()
}

/// The last two tokens that were read of a file: `None` where there were fewer.
#[derive(Clone, Copy)]
pub struct Window<'a> {
    /// Whether `$` stands before the first one.
    pub is_after_dollar: bool,
    /// The first one.
    pub name: Option<Token<'a>>,
    /// The second one.
    pub bang: Option<Token<'a>>,
}

/// The first three tokens of a call: a word, `!` and an opening delimiter.
#[derive(Clone, Copy)]
pub struct Front<'a> {
    pub name: Token<'a>,
    pub bang: Token<'a>,
    pub opening: Token<'a>,
}

/// Returns the first three tokens of a call, if the last two tokens and the one after them are
/// these.
fn front_of<'a>(rows: &[Row<'_>], last: Window<'a>, opening: Token<'a>) -> Option<Front<'a>> {
    if last.is_after_dollar {
        return None;
    }
    let Some(name) = last.name else {
        return None;
    };
    let Some(bang) = last.bang else {
        return None;
    };
    if opens_call(rows, &name, &bang, &opening) {
        Some(Front {
            name,
            bang,
            opening,
        })
    } else {
        None
    }
}

/// Returns the last two tokens with one more.
fn next_window<'a>(last: Window<'a>, token: Token<'a>) -> Window<'a> {
    let is_after_dollar = match last.name {
        Some(name) => is_mark_of(&name, b'$'),
        None => last.is_after_dollar,
    };
    Window {
        is_after_dollar,
        name: last.bang,
        bang: Some(token),
    }
}

/// Adds the tokens of a part after the first three.
fn add_after_front(balance: &mut Balance, part: &Source<'_>) -> Result<(), AllocError> {
    let tokens = part.tokens();
    balance.add_all(&tokens[3..])?;
    Ok(())
}

/// Reads a file up to the end of the next call of a macro of a table, with the calls that begin
/// within it, and returns its tokens from the name on. Returns `None` at the end of the file if no
/// further call comes, and `Err` if an allocation fails.
///
/// Only these tokens are in memory at a time, where a whole file takes some twenty times its bytes.
/// Where the delimiters of a call do not match, its part ends at the first one that nothing allows,
/// or with the file. All tokens that are read are added to `balance`.
pub fn next_part<'a>(
    rest: &mut Tokens<'a>,
    table: &Table<'_>,
    balance: &mut Balance,
) -> Result<Option<Source<'a>>, AllocError> {
    let mut last = Window {
        is_after_dollar: false,
        name: None,
        bang: None,
    };
    while let Some(token) = rest.next() {
        balance.add(&token)?;
        if let Some(front) = front_of(&table.rows, last, token) {
            let tokens = [front.name, front.bang, front.opening];
            let part = Source::read_group(&tokens, rest)?;
            add_after_front(balance, &part)?;
            return Ok(Some(part));
        }
        last = next_window(last, token);
    }
    Ok(None)
}
