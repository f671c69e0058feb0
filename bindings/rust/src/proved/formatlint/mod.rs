//! Finds the faults of format strings in Rust sources, or in one string, as the Rust compiler does.

// Extracted from crates/formatlint/src/main.rt by tools/extract: not to be edited.
// That source has the contracts, and is proved. That this text means the same is only tested.

use crate::shim::prelude::*;
pub(crate) mod attributes;
pub(crate) mod changed_files;
pub(crate) mod files;
pub(crate) mod inlinings;
pub(crate) mod output;
pub(crate) mod own_rows;
pub(crate) mod package_sources;
pub(crate) mod reading;
pub(crate) mod rewrites;
pub(crate) mod totals;
pub(crate) mod walk;
pub(crate) mod wanted_reports;

use crate::proved::drawn_lines::WIDTH;
use crate::proved::emit::Form;
use crate::proved::fault_rules::{put_explanation, rule_of, RULES};
use crate::proved::file_paths::shown_path;
use crate::proved::lint_program::{
    change_of, command, form_of, has_colours, literal_status, print_failure, table_of, width_of,
    Change, VERSION,
};
use crate::proved::shown_text::{put_shown, Kind};
use crate::proved::source_report::Options;
use crate::shim::alloc::AllocError;
use crate::shim::clap::error::ErrorKind;
use crate::shim::clap::{ArgMatches, Error};
use crate::shim::host::env::words as args;
use crate::shim::strsim::levenshtein;
use files::{lint, Request};
use output::write;
use rewrites::Rewrite;
use std::io;
use std::process::ExitCode;
use totals::Totals;

/// The error message for a value of `--args` that is no list of arguments.
const WRONG_LIST: &str =
    "invalid value for '--args <LIST>': it is a number of arguments, and then \
    names, each after a comma, as in 2,w";

/// The error message for a value of `--width` that is no number.
const WRONG_WIDTH: &str = "invalid value for '--width <N>': it is a number of columns";

/// The error message for several paths where one string is read.
const SEVERAL: &str = "--literal and --text read one string, of one file or of standard input";

/// The error message for a path that names standard input where it is not read.
const NO_STDIN: &str = "--stdin-path names standard input, and no path is -";

/// Returns the error that a value of the arguments is wrong, with the reason.
#[inline]
fn value_error(rt: &crate::shim::host::HostRuntime, reason: &str) -> Result<u8, Error> {
    Err(command()?.error(ErrorKind::ValueValidation, reason)?)
}

/// Appends the ids of all kinds of faults, each in a line.
fn put_ids(out: &mut String) -> Result<(), AllocError> {
    for rule in &RULES {
        out.push_str(rule.id);
        out.push_str("\n");
    }
    Ok(())
}

/// Writes a text to standard output. Returns the exit status.
fn print(rt: &crate::shim::host::HostRuntime, text: &str) -> u8 {
    match write(rt, text) {
        Ok(()) => 0,
        Err(failure) => print_failure(rt, "<stdout>", &[], &failure),
    }
}

/// Returns the id that is nearest to a word by the number of characters to change, the first of
/// several, or `None` if each wants more than a third of the word changed, as rustc does for names.
#[inline(never)]
fn similar_id(word: &str) -> Result<Option<&'static str>, AllocError> {
    let mut limit = word.len().max(3) / 3;
    let mut id = None;
    for rule in &RULES {
        let count = levenshtein(word, rule.id)?;
        if count < limit || count == limit && id.is_none() {
            limit = count;
            id = Some(rule.id);
        }
    }
    Ok(id)
}

/// Returns a word as messages have it.
fn shown_word(word: &str) -> Result<String, AllocError> {
    let mut out = String::new();
    put_shown(&mut out, Kind::Line, shown_path(word)?.as_str())?;
    Ok(out)
}

/// Returns the error that no kind of fault has this id.
#[inline(never)]
fn id_error(rt: &crate::shim::host::HostRuntime, wrong_id: &str) -> Result<u8, Error> {
    let id = shown_word(wrong_id)?;
    let reason = match similar_id(wrong_id)? {
        Some(similar_id) => ::alloc::format!(
            "no kind of fault has the id '{id}'\n\n  tip: a similar id exists: '{similar_id}'"
        ),
        None => ::alloc::format!("no kind of fault has the id '{id}': --list-ids lists all"),
    };
    value_error(rt, reason.as_str())
}

/// Writes the explanation of the kind of fault with this id. Returns the exit status, and `Err` if
/// no kind has the id or an allocation fails.
#[inline(never)]
fn explain(rt: &crate::shim::host::HostRuntime, id: &str) -> Result<u8, Error> {
    let Some(rule) = rule_of(id) else {
        return id_error(rt, id);
    };
    let mut out = String::new();
    put_explanation(&mut out, &rule)?;
    Ok(print(rt, out.as_str()))
}

/// Reads one string. Returns the exit status.
#[inline(never)]
fn read_string(rt: &crate::shim::host::HostRuntime, matches: &ArgMatches<'_>) -> Result<u8, Error> {
    if matches
        .get_strs("path")
        .map_or(false, |paths| paths.len() > 1)
    {
        return value_error(rt, SEVERAL);
    }
    match literal_status(rt, matches) {
        Some(status) => Ok(status),
        None => value_error(rt, WRONG_LIST),
    }
}

/// Returns whether changes are shown and not written.
#[inline]
fn is_preview(change: Option<Change>) -> bool {
    matches!(change, Some(Change::Diff | Change::Check))
}

/// Returns the exit status of a run with these totals: 3 if something could not be read or written,
/// otherwise 1 if there is a fault, or for a preview if a file would change, and otherwise 0.
#[inline(never)]
fn status_of(totals: &Totals, change: Option<Change>) -> u8 {
    let is_found = if is_preview(change) {
        totals.changed_files > 0
    } else {
        totals.faults > 0
    };
    if totals.failures > 0 {
        3
    } else if is_found {
        1
    } else {
        0
    }
}

/// Reads files and folders. Returns the exit status.
#[inline(never)]
fn read_files(
    rt: &crate::shim::host::HostRuntime,
    matches: &ArgMatches<'_>,
    request: &Request<'_>,
    options: Options<'_>,
) -> u8 {
    let (totals, result) = lint(rt, request, options);
    if let Err(failure) = result {
        return print_failure(rt, "<stdout>", &[], &failure);
    }
    if matches.get_flag("stats") {
        totals.show_counts(rt);
        if request.rewrite.inlines {
            totals.show_inlinings(rt);
        }
    }
    if !matches.get_flag("quiet") && !matches!(request.form, Form::Json { .. } | Form::Sarif) {
        totals.sum_up(rt, is_preview(request.change));
    }
    status_of(&totals, request.change)
}

/// Reads the files and folders that the arguments name. Returns the exit status.
#[inline(never)]
fn files_status(
    rt: &crate::shim::host::HostRuntime,
    matches: &ArgMatches<'_>,
) -> Result<u8, Error> {
    let table = match table_of(matches.get_strs("macro").unwrap_or(&[])) {
        Ok(table) => table,
        Err(Some(wrong_word)) => {
            let word = shown_word(wrong_word)?;
            let reason = ::alloc::format!(
                "invalid value '{word}' for '--macro <NAME:INDEX>': \
                it is the name of a macro and a number, as in say:0"
            );
            return value_error(rt, reason.as_str());
        }
        Err(None) => return Err(crate::shim::alloc::refused()),
    };
    let paths = matches.get_strs("path").unwrap_or(&[]);
    let stdin_path = matches.get_str("stdin-path");
    if stdin_path.is_some() && !paths.is_empty() && !paths.contains(&"-") {
        return value_error(rt, NO_STDIN);
    }
    let request = Request {
        paths,
        excluded_names: matches.get_strs("exclude").unwrap_or(&[]),
        stdin_path,
        form: form_of(
            matches,
            width_of(rt, matches).unwrap_or(WIDTH),
            has_colours(rt, matches),
        ),
        edition: matches.get_str("edition"),
        rewrite: Rewrite {
            fixes: matches.get_flag("fix"),
            inlines: matches.get_flag("inline"),
            allows_mixed: matches.get_flag("mixed"),
        },
        change: change_of(matches),
        version: VERSION,
    };
    let options = Options {
        table,
        is_from_2021: true,
    };
    Ok(read_files(rt, matches, &request, options))
}

/// Returns the error of words that are wrong, which quotes them as messages have them: so they are
/// wrong for the same reason, as no option or value of one has a character that only messages have.
/// Returns the given error if the words are not wrong, but an allocation failed.
#[inline(never)]
fn words_error(
    rt: &crate::shim::host::HostRuntime,
    words: &[String],
    error: Error,
) -> Result<u8, Error> {
    let mut shown_words = Vec::new();
    for word in words {
        shown_words.push(shown_word(word.as_str())?);
    }
    match command()?.try_get_matches_from(shown_words.as_slice()) {
        Ok(_) => Err(error),
        Err(shown_error) => Err(shown_error),
    }
}

/// Reads the arguments of the program and runs their task. Returns the exit status, and `Err` if
/// the arguments are invalid or request help or the version, or if an allocation fails.
#[inline(never)]
fn status(rt: &crate::shim::host::HostRuntime, words: &[String]) -> Result<u8, Error> {
    let matches = match command()?.try_get_matches_from(words) {
        Ok(matches) => matches,
        Err(error) => return words_error(rt, words, error),
    };
    if matches.get_flag("list-ids") {
        let mut out = String::new();
        put_ids(&mut out)?;
        return Ok(print(rt, out.as_str()));
    }
    if let Some(id) = matches.get_str("explain") {
        return explain(rt, id);
    }
    if width_of(rt, &matches).is_none() {
        return value_error(rt, WRONG_WIDTH);
    }
    if matches.get_flag("literal") || matches.get_flag("text") {
        return read_string(rt, &matches);
    }
    files_status(rt, &matches)
}

/// Writes to standard error why the arguments cannot be read, and returns this exit status.
#[inline]
fn fail(rt: &crate::shim::host::HostRuntime, reason: &str, status: u8) -> ExitCode {
    let _ = crate::shim::eprintln_in!(rt; "formatlint: {reason}");
    ExitCode::from(status)
}

#[inline(never)]
pub fn main(rt: crate::shim::host::HostRuntime) -> ExitCode {
    let words = match args(&rt) {
        Ok(words) => words,
        Err(error) if error.kind() == io::ErrorKind::OutOfMemory => {
            return fail(&rt, "out of memory", 3);
        }
        Err(_) => return fail(&rt, "an argument is not UTF-8", 2),
    };
    match status(&rt, words.as_slice()) {
        Ok(status) => ExitCode::from(status),
        Err(error) => {
            let _ = error.print(&rt);
            ExitCode::from(error.exit_code() as u8)
        }
    }
}
