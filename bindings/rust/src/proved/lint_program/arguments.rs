//! The values that the arguments of the program stand for.

// Extracted from crates/lint_program/src/arguments.rt by tools/extract: not to be edited.
// That source has the contracts, and is proved. That this text means the same is only tested.

use crate::proved::drawn_lines::WIDTH;
use crate::proved::emit::Form;
use crate::proved::format_calls::{Row, Rule, Table};
use crate::proved::format_lint::task::{OutputKind, Task};
use crate::proved::lint_program::changes::Change;
use crate::proved::lint_program::colours::{wants_colours, ColourChoice};
use crate::proved::rust_tokens::{first_token, Kind};
use crate::proved::rustc_parse_format::ParseMode;
use crate::shim::alloc::AllocError;
use crate::shim::clap::ArgMatches;
use crate::shim::host::env;
use crate::shim::host::IsTerminal;
use crate::shim::prelude::*;

/// Returns the word for the mode.
#[inline]
fn mode_word<'a>(matches: &ArgMatches<'a>) -> &'a str {
    matches.get_str("mode").unwrap_or("format")
}

/// Returns the mode.
fn mode_of(matches: &ArgMatches<'_>) -> ParseMode {
    match mode_word(matches) {
        "asm" => ParseMode::InlineAsm,
        "diagnostic" => ParseMode::Diagnostic,
        "diagnostic-named" => ParseMode::DiagnosticNamed,
        _ => ParseMode::Format,
    }
}

/// Returns when colours are written.
fn when_of(matches: &ArgMatches<'_>) -> ColourChoice {
    match matches.get_str("color").unwrap_or("auto") {
        "always" => ColourChoice::Always,
        "never" => ColourChoice::Never,
        _ => ColourChoice::Auto,
    }
}

/// Returns whether each stream to which tokens or drawings are written is a terminal. Drawings go
/// to standard error where the output is tokens or a literal.
#[inline(never)]
fn are_terminals(rt: &crate::shim::host::HostRuntime, matches: &ArgMatches<'_>) -> bool {
    match output_kind_of(matches) {
        OutputKind::Fix => rt.stderr().is_terminal(),
        OutputKind::Tokens => rt.stdout().is_terminal() && rt.stderr().is_terminal(),
        OutputKind::Fault | OutputKind::All => rt.stdout().is_terminal(),
    }
}

/// Returns whether tokens and drawings are in colours.
#[inline(never)]
pub fn has_colours(rt: &crate::shim::host::HostRuntime, matches: &ArgMatches<'_>) -> bool {
    let no_color = env::var(rt, "NO_COLOR").ok();
    let term = env::var(rt, "TERM").ok();
    wants_colours(
        when_of(matches),
        are_terminals(rt, matches),
        no_color.as_deref(),
        term.as_deref(),
    )
}

/// Returns how many columns the terminal that standard output is has, as the environment variable
/// `COLUMNS` says, or `None` if it is no terminal or the variable is no positive number.
#[inline(never)]
fn terminal_width(rt: &crate::shim::host::HostRuntime) -> Option<usize> {
    if !rt.stdout().is_terminal() {
        return None;
    }
    let columns = env::var(rt, "COLUMNS").ok();
    match columns.as_deref().unwrap_or("").parse::<usize>() {
        Ok(width) if width > 0 => Some(width),
        _ => None,
    }
}

/// Returns how many columns a row of a drawing has, or `None` if the word for it is no number.
/// Without a word it has as many as the terminal, or [`WIDTH`].
#[inline(never)]
pub fn width_of(rt: &crate::shim::host::HostRuntime, matches: &ArgMatches<'_>) -> Option<usize> {
    match matches.get_str("width") {
        None => Some(terminal_width(rt).unwrap_or(WIDTH)),
        Some(word) => word.parse::<usize>().ok(),
    }
}

/// Returns the form of messages, drawn in colours or not.
#[inline(never)]
pub fn form_of(matches: &ArgMatches<'_>, width: usize, colours: bool) -> Form {
    match matches.get_str("message-format").unwrap_or("human") {
        "short" => Form::Short,
        "json" => Form::Json {
            width: if matches.get_str("width").is_some() {
                width
            } else {
                WIDTH
            },
        },
        "github" => Form::Github,
        "sarif" => Form::Sarif,
        _ => Form::Human { colours, width },
    }
}

/// Returns what is done with files that change, or `None` if none is to be changed.
#[inline(never)]
pub fn change_of(matches: &ArgMatches<'_>) -> Option<Change> {
    if !matches.get_flag("fix") && !matches.get_flag("inline") {
        None
    } else if matches.get_flag("diff") {
        Some(Change::Diff)
    } else if matches.get_flag("check") {
        Some(Change::Check)
    } else {
        Some(Change::Write)
    }
}

/// Returns the file of one string, or `None` for standard input.
pub fn file_of<'a>(matches: &ArgMatches<'a>) -> Option<&'a str> {
    match matches.get_str("path") {
        Some("-") => None,
        file => file,
    }
}

/// Returns which answer is shown for one string.
#[inline(never)]
fn output_kind_of(matches: &ArgMatches<'_>) -> OutputKind {
    if matches.get_flag("fix") {
        OutputKind::Fix
    } else if matches.get_flag("all") {
        OutputKind::All
    } else if matches.get_flag("tokens") {
        OutputKind::Tokens
    } else {
        OutputKind::Fault
    }
}

/// Returns the task for one string, where the input has this path.
pub fn task_of<'a>(
    matches: &ArgMatches<'_>,
    path: &'a str,
    width: usize,
    colours: bool,
) -> Task<'a> {
    Task {
        mode: mode_of(matches),
        is_literal: !matches.get_flag("text"),
        path,
        output_kind: output_kind_of(matches),
        width,
        colours,
    }
}

/// Returns the arguments with which `formatread` writes the listing.
#[inline(never)]
pub fn list_words(matches: &ArgMatches<'_>) -> Result<Vec<String>, AllocError> {
    let mut words = Vec::new();
    words.push(String::from(mode_word(matches)));
    if !matches.get_flag("text") {
        words.push(String::from("--literal"));
    }
    if let Some(list) = matches.get_str("args") {
        words.push(String::from("--args"));
        words.push(String::from(list));
    }
    Ok(words)
}

/// Returns whether a text can be the name of a macro: whether it is an identifier.
#[inline(never)]
fn is_name(text: &str) -> bool {
    match first_token(text) {
        Some(token) => matches!(token.kind, Kind::Ident) && token.span.end == text.len(),
        None => false,
    }
}

/// Returns the macro that a word `NAME:INDEX` means, or `None` if it means none.
#[inline(never)]
fn row_of(word: &str) -> Option<Row<'_>> {
    let (name, index) = word.split_once(':')?;
    let index = index.parse::<usize>().ok()?;
    is_name(name).then_some(Row {
        name,
        rule: Rule::Index(index),
    })
}

/// Returns the macros that are known: those of the standard library and of some crates, and those
/// that are given. The error is the first word that means none, or `None` if an allocation fails.
#[inline(never)]
pub fn table_of<'a>(words: &[&'a str]) -> Result<Table<'a>, Option<&'a str>> {
    let Ok(mut table) = Table::standard() else {
        return Err(None);
    };
    let Ok(crate_macros) = Table::with_crate_macros() else {
        return Err(None);
    };
    for row in &crate_macros.rows {
        if table.rows.try_push(*row).is_err() {
            return Err(None);
        }
    }
    for word in words {
        let Some(row) = row_of(word) else {
            return Err(Some(*word));
        };
        if table.add(row).is_err() {
            return Err(None);
        }
    }
    Ok(table)
}
