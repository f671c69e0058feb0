//! The edits that mend a fault.

// Extracted from crates/source_report/src/suggestions.rt by tools/extract: not to be edited.
// That source has the contracts, and is proved. That this text means the same is only tested.

use crate::proved::call_forms::kind_word;
use crate::proved::fault_fixes::Edit;
use crate::proved::rust_tokens::split_first;
use crate::proved::source_report::report::{Finding, Help, Label};
use crate::shim::alloc::AllocError;
use crate::shim::prelude::*;

/// A suggestion that is drawn as a label.
#[derive(Clone, Copy, Debug, Eq, PartialEq)]
pub struct LabelSuggestion {
    /// The advice.
    pub advice: &'static str,
    /// The text that replaces the source under the label.
    pub text: &'static str,
    /// Whether rustc calls it applicable by a machine.
    pub is_sure: bool,
}

/// The suggestion to remove the prefix of a raw identifier.
const REMOVE_PREFIX: LabelSuggestion = LabelSuggestion {
    advice: "remove the `r#`",
    text: "",
    is_sure: true,
};

/// The suggestion to remove an argument.
const REMOVE_ARGUMENT: LabelSuggestion = LabelSuggestion {
    advice: "this can be removed",
    text: "",
    is_sure: true,
};

/// The suggestion to write a colon before a `?`.
const ADD_COLON: LabelSuggestion = LabelSuggestion {
    advice: "add a colon before the format specifier",
    text: ":?",
    is_sure: true,
};

/// The suggestion to write a string literal in the place of a byte string literal.
const REMOVE_BYTE_PREFIX: LabelSuggestion = LabelSuggestion {
    advice: "consider removing the leading `b`",
    text: "",
    is_sure: false,
};

/// Returns the suggestion that a label with this text is, or `None` if it is none. The texts are
/// those of the labels of `file_faults` in `source_lint`.
pub fn suggestion_of(label: &str) -> Option<LabelSuggestion> {
    match label {
        "help: remove the `r#`" => Some(REMOVE_PREFIX),
        "help: this can be removed" => Some(REMOVE_ARGUMENT),
        "help: add a colon before the format specifier: `:?`" => Some(ADD_COLON),
        "help: consider removing the leading `b`" => Some(REMOVE_BYTE_PREFIX),
        _ => None,
    }
}

/// Returns whether the suggestions to a fault with this id are to be applied: rustc calls them
/// applicable by a machine, and the source is whole with them.
pub fn is_applicable(id: &str) -> bool {
    id == "raw-identifier"
        || id == "missing-colon"
        || id == "flag-after-type"
        || id == "field-access"
        || id == "tuple-index"
}

/// Returns whether a character of a format string is the same in source outside of a literal: it
/// begins no escape, and is no white space outside of ASCII.
fn is_plain(c: char) -> bool {
    c != '\\' && (c.is_ascii() || !c.is_whitespace())
}

/// Returns whether all characters of a text are plain.
#[inline(never)]
fn are_plain(text: &str) -> bool {
    let mut rest = text;
    while let Some((c, more)) = split_first(rest) {
        if !is_plain(c) {
            return false;
        }
        rest = more;
    }
    true
}

/// Returns the part of a text before the first `mark`, or all of it if there is none.
fn before_mark(text: &str, mark: char) -> &str {
    match text.split_once(mark) {
        Some((front, _)) => front,
        None => text,
    }
}

/// Returns the part of a text after the first `mark`, or nothing if there is none.
fn after_mark(text: &str, mark: char) -> &str {
    match text.split_once(mark) {
        Some((_, rest)) => rest,
        None => "",
    }
}

/// Returns whether a word is a keyword in no edition.
#[inline]
fn is_name(word: &str) -> bool {
    kind_word(word) == "" && word != "gen"
}

/// Returns whether the field of a variable, by these names, is an expression: none is a keyword,
/// but for `self` in front.
#[inline]
fn is_field(name: &str, field: &str) -> bool {
    (name == "self" || is_name(name)) && is_name(field)
}

/// Returns whether the new text of an edit is source of Rust, as far as it is moved out of a
/// literal: it is `, NAME.FIELD` without an escape, and without a keyword but `self` in front.
#[inline(never)]
fn is_movable(text: &str) -> bool {
    let moved = after_mark(text, ',');
    let name = before_mark(moved, '.').trim();
    let field = after_mark(moved, '.').trim();
    are_plain(text) && is_field(name, field)
}

/// Returns whether the new text of each edit of a help is source of Rust.
#[inline(never)]
fn is_movable_help(help: &Option<Help>) -> bool {
    let Some(help) = help else {
        return true;
    };
    for edit in help.edits.as_slice() {
        if !is_movable(edit.text.as_str()) {
            return false;
        }
    }
    true
}

/// Adds the edits of labels.
#[inline(never)]
fn add_label_edits<'f>(edits: &mut Vec<Edit<'f>>, labels: &'f [Label]) -> Result<(), AllocError> {
    for label in labels {
        if let Some(suggestion) = suggestion_of(label.text.as_str()) {
            edits.push(Edit {
                span: label.range.start..label.range.end,
                text: suggestion.text,
            });
        }
    }
    Ok(())
}

/// Adds the edits of a help.
#[inline(never)]
fn add_help_edits<'f>(edits: &mut Vec<Edit<'f>>, help: &'f Option<Help>) -> Result<(), AllocError> {
    let Some(help) = help else {
        return Ok(());
    };
    for edit in help.edits.as_slice() {
        edits.push(Edit {
            span: edit.range.start..edit.range.end,
            text: edit.text.as_str(),
        });
    }
    Ok(())
}

/// Returns the edits that mend a fault, or none if it has no suggestion to apply, or one that would
/// put text into the source that is no expression.
#[inline(never)]
pub fn edits_of<'f>(finding: &'f Finding) -> Result<Vec<Edit<'f>>, AllocError> {
    let mut edits = Vec::new();
    if is_applicable(finding.id) && is_movable_help(&finding.help) {
        add_label_edits(&mut edits, finding.labels.as_slice())?;
        add_help_edits(&mut edits, &finding.help)?;
    }
    Ok(edits)
}

/// Returns whether each edit starts where the one before it ends or later, the first one at the
/// byte offset `at` or later, and none ends before it starts.
#[inline(never)]
pub fn are_after(at: usize, edits: &[Edit<'_>]) -> bool {
    let mut end = at;
    for edit in edits {
        if edit.span.start < end || edit.span.end < edit.span.start {
            return false;
        }
        end = edit.span.end;
    }
    true
}
