//! The texts of the attributes `diagnostic::on_unimplemented` of a file.

// Extracted from crates/asm_lint/src/attributes.rt by tools/extract: not to be edited.
// That source has the contracts, and is proved. That this text means the same is only tested.

use crate::proved::asm_lint::messages::{read_text, Item};
use crate::proved::call_forms::parameters;
use crate::proved::format_calls::{
    arguments, closing_token, is_mark, is_text, is_text_leaf, token_at, Argument,
};
use crate::proved::message_faults::names_of;
use crate::proved::rust_trees::{Source, Token};
use crate::proved::source_report::Finding;
use crate::shim::alloc::AllocError;
use crate::shim::prelude::*;

/// Returns whether the token of an index is this word.
fn has_word_at(tokens: &[Token<'_>], index: usize, word: &str) -> bool {
    match token_at(tokens, index) {
        Some(token) => is_text(&token, word),
        None => false,
    }
}

/// Returns whether `#[diagnostic::on_unimplemented(` stands from a token on.
#[inline(never)]
fn begins_attribute(tokens: &[Token<'_>], index: usize) -> bool {
    is_mark(tokens, index, b'#')
        && is_mark(tokens, index + 1, b'[')
        && has_word_at(tokens, index + 2, "diagnostic")
        && is_mark(tokens, index + 3, b':')
        && is_mark(tokens, index + 4, b':')
        && has_word_at(tokens, index + 5, "on_unimplemented")
        && is_mark(tokens, index + 6, b'(')
}

/// Returns the token that closes the list of the attribute that stands at a token, or `None` if no
/// attribute does.
fn attribute_at(source: &Source<'_>, index: usize) -> Option<usize> {
    if !begins_attribute(source.tokens(), index) {
        return None;
    }
    closing_token(source, index + 6)
}

/// Returns whether two tokens from one on are of the front of an item, of which the second opens a
/// pair.
#[inline(never)]
fn opens_front(tokens: &[Token<'_>], index: usize) -> bool {
    is_mark(tokens, index, b'#') && is_mark(tokens, index + 1, b'[')
        || has_word_at(tokens, index, "pub") && is_mark(tokens, index + 1, b'(')
}

/// Returns whether a token is a word of the front of an item.
fn is_modifier(tokens: &[Token<'_>], index: usize) -> bool {
    has_word_at(tokens, index, "pub")
        || has_word_at(tokens, index, "unsafe")
        || has_word_at(tokens, index, "auto")
        || has_word_at(tokens, index, "const")
}

/// Returns the token after the part of the front of an item that stands at a token, or `None` if no
/// such part does.
#[inline(never)]
fn after_front(source: &Source<'_>, index: usize) -> Option<usize> {
    let tokens = source.tokens();
    if opens_front(tokens, index) {
        return match closing_token(source, index + 1) {
            Some(close) => Some(close + 1),
            None => None,
        };
    }
    if is_modifier(tokens, index) {
        return Some(index + 1);
    }
    None
}

/// The front of an item.
struct Front {
    /// The tokens at which its parts start.
    starts: Vec<usize>,
    /// The token after it.
    end: usize,
}

/// Returns the front of the item that starts at a token.
#[inline(never)]
fn front_at(source: &Source<'_>, start: usize) -> Result<Front, AllocError> {
    let mut starts = Vec::new();
    let mut end = start;
    while let Some(next_end) = after_front(source, end) {
        starts.push(end);
        end = next_end;
    }
    Ok(Front { starts, end })
}

/// Returns whether an option sets this word.
#[inline]
fn sets_word(tokens: &[Token<'_>], option: &Argument, word: &str) -> bool {
    option.is_named && has_word_at(tokens, option.start, word)
}

/// Returns the literal that an option sets, or `None` if it sets none.
#[inline(never)]
fn literal_of<'a>(tokens: &[Token<'a>], option: &Argument) -> Option<Token<'a>> {
    match token_at(tokens, option.start + 2) {
        Some(token) if option.end == option.start + 3 && is_text_leaf(&token) => Some(token),
        _ => None,
    }
}

/// Returns whether an option counts, where a message and a label have been there or not.
fn is_effective(
    tokens: &[Token<'_>],
    has_message: bool,
    has_label: bool,
    option: &Argument,
) -> bool {
    sets_word(tokens, option, "message") && !has_message
        || sets_word(tokens, option, "label") && !has_label
        || sets_word(tokens, option, "note")
}

/// Adds the literal that an option sets, if it counts.
#[inline(never)]
fn put_literal<'a>(
    literals: &mut Vec<Token<'a>>,
    tokens: &[Token<'a>],
    has_message: bool,
    has_label: bool,
    option: &Argument,
) -> Result<(), AllocError> {
    if let Some(literal) = literal_of(tokens, option) {
        if is_effective(tokens, has_message, has_label, option) {
            literals.push(literal);
        }
    }
    Ok(())
}

/// Reads these literals before a trait, and adds their findings.
fn read_texts<'a>(
    findings: &mut Vec<Finding>,
    text: &'a str,
    item: Item<'_, '_>,
    literals: &[Token<'a>],
) -> Result<(), AllocError> {
    for literal in literals {
        read_text(findings, text, item, literal)?;
    }
    Ok(())
}

/// Returns the literals of the options that count, in their order.
#[inline(never)]
fn literals<'a>(tokens: &[Token<'a>], options: &[Argument]) -> Result<Vec<Token<'a>>, AllocError> {
    let mut literals = Vec::new();
    let mut has_message = false;
    let mut has_label = false;
    for option in options {
        put_literal(&mut literals, tokens, has_message, has_label, option)?;
        has_message = has_message || sets_word(tokens, option, "message");
        has_label = has_label || sets_word(tokens, option, "label");
    }
    Ok(literals)
}

/// Reads the attribute of a trait that stands at a token, if one does, and adds its findings.
#[inline(never)]
fn read_at<'a>(
    findings: &mut Vec<Finding>,
    text: &'a str,
    source: &Source<'a>,
    item: Item<'_, '_>,
    index: usize,
) -> Result<(), AllocError> {
    let Some(close) = attribute_at(source, index) else {
        return Ok(());
    };
    let Some(options) = arguments(source, close)? else {
        return Ok(());
    };
    let literals = literals(source.tokens(), &options)?;
    read_texts(findings, text, item, &literals)?;
    Ok(())
}

/// Reads the attributes among the parts of the front of a trait, which start at these tokens, and
/// adds their findings.
fn read_fronts<'a>(
    findings: &mut Vec<Finding>,
    text: &'a str,
    source: &Source<'a>,
    item: Item<'_, '_>,
    starts: &[usize],
) -> Result<(), AllocError> {
    for start in starts {
        read_at(findings, text, source, item, *start)?;
    }
    Ok(())
}

/// Returns the text of a token, or an empty one if there is no such token.
fn text_at<'a>(tokens: &[Token<'a>], index: usize) -> &'a str {
    match token_at(tokens, index) {
        Some(token) => token.text,
        None => "",
    }
}

/// Reads the attributes of an item with this front, and adds their findings.
#[inline(never)]
fn read_item<'a>(
    findings: &mut Vec<Finding>,
    text: &'a str,
    source: &Source<'a>,
    front: &Front,
) -> Result<(), AllocError> {
    let tokens = source.tokens();
    if !has_word_at(tokens, front.end, "trait") {
        return Ok(());
    }
    let parameters = parameters(tokens, front.end + 2)?;
    let names = names_of(&parameters)?;
    let item = Item {
        name: text_at(tokens, front.end + 1),
        parameters: &parameters,
        names: &names,
    };
    read_fronts(findings, text, source, item, &front.starts)?;
    Ok(())
}

/// Reads the attributes of a file, which has these tokens, and adds their findings.
#[inline(never)]
pub fn read_attributes<'a>(
    findings: &mut Vec<Finding>,
    text: &'a str,
    source: &Source<'a>,
) -> Result<(), AllocError> {
    let count = source.tokens().len();
    let mut index = 0;
    while index < count {
        let front = front_at(source, index)?;
        read_item(findings, text, source, &front)?;
        index = front.end + 1;
    }
    Ok(())
}
