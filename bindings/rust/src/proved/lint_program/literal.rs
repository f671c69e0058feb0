//! The run over one string: a literal, or a text.

// Extracted from crates/lint_program/src/literal.rt by tools/extract: not to be edited.
// That source has the contracts, and is proved. That this text means the same is only tested.

use crate::proved::drawn_lines::WIDTH;
use crate::proved::file_paths::shown_path;
use crate::proved::format_lint::run::run;
use crate::proved::lint_program::arguments::{file_of, has_colours, list_words, task_of, width_of};
use crate::proved::lint_program::failure::Failure;
use crate::proved::lint_program::messages::{put_failure, put_not_literal, system_words};
use crate::proved::lint_program::recorder::Recorder;
use crate::proved::lint_program::terminal::shown_bytes;
use crate::proved::listing_json::{list, Listing};
use crate::proved::literal_faults::{file_fault, snippet_of};
use crate::proved::piece_listing::run::{read_input, run as list_as_text, write_whole};
use crate::proved::piece_listing::verdict::RunFault;
use crate::shim::alloc::AllocError;
use crate::shim::clap::ArgMatches;
use crate::shim::host::fs;
use crate::shim::host::IsTerminal;
use crate::shim::prelude::*;
use std::io::{ErrorKind, Read, Write};

/// Reads a stream to its end.
#[inline(never)]
fn read<R: Read>(rt: &crate::shim::host::HostRuntime, stream: R) -> Result<Vec<u8>, Failure> {
    let mut reader = Recorder::new(stream);
    match read_input(&mut reader) {
        Ok(bytes) => Ok(bytes),
        Err(fault) => Err(Failure {
            fault,
            error: reader.error,
        }),
    }
}

/// Reads a file, or standard input.
#[inline(never)]
fn read_file(rt: &crate::shim::host::HostRuntime, file: Option<&str>) -> Result<Vec<u8>, Failure> {
    let Some(path) = file else {
        print_hint(rt);
        return read(rt, rt.stdin());
    };
    match fs::open(rt, path) {
        Ok(file) => read(rt, file),
        Err(error) => Err(Failure::new(error)),
    }
}

/// Returns the bytes of a file with each CRLF as the line feed that the compiler reads it as. A
/// text that is no literal stays as it is.
#[inline(never)]
fn without_returns(matches: &ArgMatches<'_>, file: Vec<u8>) -> Result<Vec<u8>, AllocError> {
    if matches.get_flag("text") || !file.contains(&b'\r') {
        return Ok(file);
    }
    let mut bytes = Vec::new();
    for (index, byte) in file.iter().enumerate() {
        if *byte != b'\r' || file.get(index.saturating_add(1)) != Some(&b'\n') {
            bytes.push(*byte);
        }
    }
    Ok(bytes)
}

/// Writes to standard error that standard input is read, if it is a terminal.
pub fn print_hint(rt: &crate::shim::host::HostRuntime) {
    if rt.stdin().is_terminal() {
        let _ = rt.eprintln("formatlint: reads what is typed here, up to Ctrl-D; --help says more");
    }
}

/// Reads the input: a file, or standard input.
fn input(
    rt: &crate::shim::host::HostRuntime,
    matches: &ArgMatches<'_>,
    file: Option<&str>,
) -> Result<Vec<u8>, Failure> {
    let bytes = read_file(rt, file)?;
    Ok(without_returns(matches, bytes)?)
}

/// Returns the bytes of an input that are listed: all of a text, or the literal in a file.
#[inline(never)]
fn listing_input<'a>(matches: &ArgMatches<'_>, input: &'a [u8]) -> &'a [u8] {
    if matches.get_flag("text") {
        return input;
    }
    match core::str::from_utf8(input) {
        Ok(file) => snippet_of(file).text.as_bytes(),
        Err(_) => input,
    }
}

/// Returns the listing of an input, in the form that the arguments name.
#[inline(never)]
fn listing_of(matches: &ArgMatches<'_>, input: &[u8]) -> Result<Listing, RunFault> {
    let words = list_words(matches)?;
    let bytes = listing_input(matches, input);
    if matches.get_str("format") == Some("json") {
        return list(bytes, words.as_slice());
    }
    let mut reader = bytes;
    let mut lines = Vec::new();
    let has_ends = list_as_text(&mut reader, &mut lines, words.as_slice())?;
    Ok(Listing {
        bytes: lines,
        has_ends,
    })
}

/// Writes bytes to standard output, on a terminal as drawings have them.
fn write_shown<W: Write>(
    rt: &crate::shim::host::HostRuntime,
    writer: &mut W,
    bytes: &[u8],
) -> Result<(), RunFault> {
    let mut drawing = String::new();
    write_whole(writer, shown_bytes(rt, bytes, &mut drawing)?)
}

/// Writes the listing of an input. Returns 1 if a line is not of a piece.
fn answer_listing<W: Write>(
    rt: &crate::shim::host::HostRuntime,
    writer: &mut W,
    matches: &ArgMatches<'_>,
    input: &[u8],
) -> Result<usize, RunFault> {
    let listing = listing_of(matches, input)?;
    write_shown(rt, writer, listing.bytes.as_slice())?;
    Ok(usize::from(listing.has_ends))
}

/// Writes the answer for an input that is not listed. Returns how many mistakes are left.
#[inline(never)]
fn answer_task<W: Write, E: Write>(
    rt: &crate::shim::host::HostRuntime,
    writer: &mut W,
    error_writer: &mut E,
    matches: &ArgMatches<'_>,
    path: &str,
    input: &[u8],
) -> Result<usize, RunFault> {
    let width = width_of(rt, matches).unwrap_or(WIDTH);
    let task = task_of(matches, path, width, has_colours(rt, matches));
    let mut reader = input;
    if !matches.get_flag("fix") || !rt.stdout().is_terminal() {
        return run(&mut reader, writer, error_writer, task);
    }
    // (only of a literal has the output characters as the input has them)
    let mut literal = Vec::new();
    let count = run(&mut reader, &mut literal, error_writer, task)?;
    write_shown(rt, writer, literal.as_slice())?;
    Ok(count)
}

/// Writes the answer for an input. Returns how many mistakes are left, and of a list 1 if a line is
/// not of a piece.
#[inline(never)]
fn answer(
    rt: &crate::shim::host::HostRuntime,
    matches: &ArgMatches<'_>,
    path: &str,
    input: &[u8],
) -> Result<usize, Failure> {
    let mut writer = Recorder::new(rt.stdout());
    let mut error_writer = Recorder::new(rt.stderr());
    let result = if matches.get_flag("list") {
        answer_listing(rt, &mut writer, matches, input)
    } else {
        answer_task(rt, &mut writer, &mut error_writer, matches, path, input)
    };
    match result {
        Ok(count) => Ok(count),
        Err(fault) => Err(Failure {
            fault,
            error: writer.error.or(error_writer.error),
        }),
    }
}

/// Appends the lines with the reason why there is no answer.
#[inline(never)]
fn put_reason(
    out: &mut String,
    path: &str,
    input: &[u8],
    failure: &Failure,
) -> Result<(), AllocError> {
    if failure.fault == RunFault::NotLiteral {
        if let Ok(file) = core::str::from_utf8(input) {
            if let Some(fault) = file_fault(file) {
                return put_not_literal(out, path, file, &fault);
            }
        }
    }
    let words = match &failure.error {
        Some(error) => ::alloc::format!("{error}"),
        None => String::new(),
    };
    put_failure(out, path, failure.fault, system_words(words.as_str()))
}

/// The exit status where the reader of the output is gone: that of a program that ends by the
/// signal SIGPIPE.
const GONE: u8 = 141;

/// The advice where the string was given as a path.
const NO_PATH: &str = "  = help: without a PATH the string is read from standard input";

/// Writes to standard error why there is no answer, and returns the exit status.
#[inline(never)]
pub fn print_failure(
    rt: &crate::shim::host::HostRuntime,
    path: &str,
    input: &[u8],
    failure: &Failure,
) -> u8 {
    if failure.has_kind(ErrorKind::BrokenPipe) {
        return GONE;
    }
    let mut out = String::new();
    let _ = match put_reason(&mut out, path, input, failure) {
        Ok(()) => rt.eprint(out.as_str()),
        Err(_) => rt.eprintln("formatlint: out of memory"),
    };
    if failure.fault == RunFault::NotLiteral {
        1
    } else {
        3
    }
}

/// Writes to standard error how many mistakes there are besides the first, where only that is
/// drawn.
fn print_other_count(rt: &crate::shim::host::HostRuntime, matches: &ArgMatches<'_>, count: usize) {
    if count > 1 && !matches.get_flag("all") {
        let other_count = count - 1;
        let _ =
            crate::shim::eprintln_in!(rt; "formatlint: and {other_count} more, which --all draws");
    }
}

/// Reads one string, and writes the answer. Returns the exit status, or `None` if the value of
/// `--args` is no list of arguments.
#[inline(never)]
pub fn literal_status(rt: &crate::shim::host::HostRuntime, matches: &ArgMatches<'_>) -> Option<u8> {
    let file = file_of(matches);
    let path = match file {
        Some(path) => path,
        None => matches.get_str("stdin-path").unwrap_or("<stdin>"),
    };
    let shown_path = match shown_path(path) {
        Ok(shown_path) => shown_path,
        Err(error) => return Some(print_failure(rt, path, &[], &Failure::from(error))),
    };
    let path = shown_path.as_str();
    let bytes = match input(rt, matches, file) {
        Ok(bytes) => bytes,
        Err(failure) => {
            let status = print_failure(rt, path, &[], &failure);
            if failure.has_kind(ErrorKind::NotFound) {
                let _ = rt.eprintln(NO_PATH);
            }
            return Some(status);
        }
    };
    match answer(rt, matches, path, bytes.as_slice()) {
        Ok(count) => {
            print_other_count(rt, matches, count);
            Some(u8::from(count > 0))
        }
        Err(failure) if failure.fault == RunFault::Words => None,
        Err(failure) => Some(print_failure(rt, path, bytes.as_slice(), &failure)),
    }
}
