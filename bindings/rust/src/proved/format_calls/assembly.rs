//! The arguments of a macro for inline assembly: templates, and then operands and options.

// Extracted from crates/format_calls/src/assembly.rt by tools/extract: not to be edited.
// That source has the contracts, and is proved. That this text means the same is only tested.

use crate::proved::format_calls::marks::{is_mark_of, token_at};
use crate::proved::format_calls::modes::is_text as is_text_of;
use crate::proved::format_calls::part::Part;
use crate::proved::format_calls::split::Argument;
use crate::proved::format_calls::strings::is_text;
use crate::proved::rust_tokens::Kind;
use crate::proved::rust_trees::Token;

/// The kind of an argument after the templates of a macro for inline assembly.
#[derive(Clone, Copy)]
pub enum AsmPart {
    /// An operand without a register of its own, for example `in(reg) x` or `const 1`.
    Operand,
    /// An operand with a register of its own, for example `in("eax") x`.
    Register,
    /// Options with `raw` among them, where templates have no placeholders.
    Raw,
    /// Other options, or ABIs: `options(..)` or `clobber_abi(..)`.
    Setting,
    /// Anything else.
    Unknown,
}

/// Returns how many of arguments, from the first one on, are a string literal: these are the
/// templates.
pub fn template_count(tokens: &[Token<'_>], arguments: &[Argument]) -> usize {
    for (index, argument) in arguments.iter().enumerate() {
        if !is_text(tokens, argument) {
            return index;
        }
    }
    arguments.len()
}

/// Returns whether a word is that of an operand that a register in parentheses follows.
fn is_direction(token: &Token<'_>) -> bool {
    is_text_of(token, "in")
        || is_text_of(token, "out")
        || is_text_of(token, "inout")
        || is_text_of(token, "lateout")
        || is_text_of(token, "inlateout")
}

/// Returns whether a word is that of an operand that has no register.
fn is_value(token: &Token<'_>) -> bool {
    is_text_of(token, "const") || is_text_of(token, "sym") || is_text_of(token, "label")
}

/// Returns whether there is a token, and it is a string literal, of whatever kind.
fn is_string(token: Option<Token<'_>>) -> bool {
    match token {
        Some(token) => matches!(token.kind, Kind::Str | Kind::RawStr),
        None => false,
    }
}

/// Returns whether there is a token, and it is an opening parenthesis.
fn is_parenthesis(token: Option<Token<'_>>) -> bool {
    match token {
        Some(token) => is_mark_of(&token, b'('),
        None => false,
    }
}

/// Returns which operand has its register, in parentheses, at this token.
#[inline]
fn register_at(token: Option<Token<'_>>) -> AsmPart {
    if is_string(token) {
        AsmPart::Register
    } else {
        AsmPart::Operand
    }
}

/// Returns what an argument without a name is that begins with a token, and has the word `raw` or
/// not.
fn setting_of(has_raw: bool, token: &Token<'_>) -> AsmPart {
    if is_text_of(token, "options") {
        if has_raw {
            AsmPart::Raw
        } else {
            AsmPart::Setting
        }
    } else if is_text_of(token, "clobber_abi") {
        AsmPart::Setting
    } else {
        AsmPart::Unknown
    }
}

/// Returns the token of an index, if it is one of an argument.
#[inline]
fn token_in<'a>(tokens: &[Token<'a>], argument: &Argument, index: usize) -> Option<Token<'a>> {
    if index < argument.end {
        token_at(tokens, index)
    } else {
        None
    }
}

/// Returns what an argument is whose value begins with the first one of these three tokens, if they
/// are there. It has a name or not, and the word `raw` or not.
fn part_of(
    is_named: bool,
    has_raw: bool,
    first: Option<Token<'_>>,
    second: Option<Token<'_>>,
    third: Option<Token<'_>>,
) -> AsmPart {
    let Some(first) = first else {
        return AsmPart::Unknown;
    };
    if is_direction(&first) && is_parenthesis(second) {
        return register_at(third);
    }
    if is_value(&first) {
        return AsmPart::Operand;
    }
    if is_named {
        return AsmPart::Unknown;
    }
    setting_of(has_raw, &first)
}

/// Returns what an argument after the templates is, which starts at one of the tokens.
pub fn asm_part(part: &Part<'_>, argument: &Argument) -> AsmPart {
    let tokens = part.tokens();
    let start = if argument.is_named {
        argument.start + 2
    } else {
        argument.start
    };
    part_of(
        argument.is_named,
        part.has_raw(argument),
        token_in(tokens, argument, start),
        token_in(tokens, argument, start + 1),
        token_in(tokens, argument, start + 2),
    )
}
