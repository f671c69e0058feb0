//! The command-line arguments of the program, parsed.

// Extracted from crates/piece_listing/src/task.rt by tools/extract: not to be edited.
// That source has the contracts, and is proved. That this text means the same is only tested.

use super::arguments::{given_arguments, GivenArguments};
use crate::proved::rustc_parse_format::ParseMode;
use crate::shim::prelude::*;

/// The task that the command-line arguments give.
#[derive(Copy, Clone)]
pub struct Task<'a> {
    pub mode: ParseMode,
    /// Whether the input is a string literal.
    pub is_literal: bool,
    /// The list of arguments to compare the pieces with, if there is one.
    pub arguments: Option<GivenArguments<'a>>,
}

/// Returns the mode that a word names, or `None` if it names none.
#[inline(never)]
fn mode_named(word: &str) -> Option<ParseMode> {
    if word == "format" {
        Some(ParseMode::Format)
    } else if word == "asm" {
        Some(ParseMode::InlineAsm)
    } else if word == "diagnostic" {
        Some(ParseMode::Diagnostic)
    } else if word == "diagnostic-named" {
        Some(ParseMode::DiagnosticNamed)
    } else {
        None
    }
}

/// Returns the task with the mode that `word` names, or `None` if it names none.
fn task_in<'a>(
    word: &str,
    is_literal: bool,
    arguments: Option<GivenArguments<'a>>,
) -> Option<Task<'a>> {
    let mode = mode_named(word)?;
    Some(Task {
        mode,
        is_literal,
        arguments,
    })
}

/// Returns the task with the mode that `word` names and the list of arguments in `list`, or `None`
/// if `word` names no mode or `list` is not a list of arguments.
fn task_with<'a>(word: &str, is_literal: bool, list: &'a str) -> Option<Task<'a>> {
    let arguments = given_arguments(list)?;
    task_in(word, is_literal, Some(arguments))
}

/// Returns the task that the command-line arguments give, or `None` if they are invalid.
#[inline(never)]
pub fn task_of(words: &[String]) -> Option<Task<'_>> {
    match words {
        [word] => task_in(word.as_str(), false, None),
        [word, first] => {
            if first.as_str() == "--literal" {
                task_in(word.as_str(), true, None)
            } else {
                None
            }
        }
        [word, first, list] => {
            if first.as_str() == "--args" {
                task_with(word.as_str(), false, list.as_str())
            } else {
                None
            }
        }
        [word, first, second, list] => {
            if first.as_str() == "--literal" && second.as_str() == "--args" {
                task_with(word.as_str(), true, list.as_str())
            } else {
                None
            }
        }
        _ => None,
    }
}
