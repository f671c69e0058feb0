//! The options of the program.

// Extracted from crates/lint_program/src/options.rt by tools/extract: not to be edited.
// That source has the contracts, and is proved. That this text means the same is only tested.

use crate::shim::alloc::AllocError;
use crate::shim::clap::{Arg, ArgAction, ArgGroup, Command};

/// The version of the program.
pub const VERSION: &str = "0.3.0";

/// The words that name a mode.
const MODES: [&str; 4] = ["format", "asm", "diagnostic", "diagnostic-named"];

/// The words that say when there are colours.
const TIMES: [&str; 3] = ["auto", "always", "never"];

/// The words that name a form of messages.
const FORMS: [&str; 5] = ["human", "short", "json", "github", "sarif"];

/// The words that name a form of listings.
const LISTINGS: [&str; 2] = ["text", "json"];

/// The editions.
const EDITIONS: [&str; 4] = ["2015", "2018", "2021", "2024"];

/// The options about files, which are not given with those about a string.
const FILES: [&str; 7] = [
    "exclude",
    "edition",
    "macro",
    "message-format",
    "stats",
    "inline",
    "mixed",
];

/// The options with which no diff is printed.
const NO_PREVIEW: [&str; 3] = ["message-format", "literal", "text"];

/// The options with which no paths are printed.
const NO_CHECK: [&str; 4] = ["message-format", "literal", "text", "diff"];

/// An option, as a row of a table.
struct Row {
    /// The name, without its two dashes.
    name: &'static str,
    /// The name of its value, or `None` for an option without a value.
    value: Option<&'static str>,
    help: &'static str,
    /// Its short name, without the dash.
    short: Option<char>,
    /// The values that it may have, or none if it may have any.
    values: &'static [&'static str],
    /// The value that it has where it is not given.
    default: Option<&'static str>,
    /// Whether it may be given again and again.
    is_repeated: bool,
    /// The options, or the group, without which it is not given.
    required_names: &'static [&'static str],
    /// The options with which it is not given.
    conflicting_names: &'static [&'static str],
}

/// An option without a value that may be given with all others.
const FLAG: Row = Row {
    name: "",
    value: None,
    help: "",
    short: None,
    values: &[],
    default: None,
    is_repeated: false,
    required_names: &[],
    conflicting_names: &[],
};

/// The options, in the order of the help.
static OPTIONS: [Row; 24] = [
    Row {
        name: "exclude",
        value: Some("NAME"),
        help: "Leave out files and folders with this name; it can be given again",
        is_repeated: true,
        ..FLAG
    },
    Row {
        name: "stdin-path",
        value: Some("PATH"),
        help: "The path that messages give to standard input, which is read if no PATH is given",
        ..FLAG
    },
    Row {
        name: "edition",
        value: Some("YEAR"),
        help: "The edition of the files, in place of that in the nearest Cargo.toml",
        values: &EDITIONS,
        ..FLAG
    },
    Row {
        name: "macro",
        value: Some("NAME:INDEX"),
        help: "A macro, and which of its arguments, from 0, is a format string; it can be given again",
        is_repeated: true,
        ..FLAG
    },
    Row {
        name: "message-format",
        value: Some("FORM"),
        help: "The form of messages; short is a line, and json has rustc's members",
        values: &FORMS,
        default: Some("human"),
        ..FLAG
    },
    Row {
        name: "stats",
        help: "Say on standard error how many files, calls and strings were read, how many were not, and why",
        ..FLAG
    },
    Row {
        name: "quiet",
        help: "Do not say on standard error how many faults there are",
        short: Some('q'),
        ..FLAG
    },
    Row {
        name: "literal",
        help: "Read one string literal, of a file or of standard input",
        conflicting_names: &FILES,
        ..FLAG
    },
    Row {
        name: "text",
        help: "Read the text of one string, of a file or of standard input",
        conflicting_names: &FILES,
        ..FLAG
    },
    Row {
        name: "fix",
        help: "Apply the suggestions to the files in place, or print the literal or standard input with them",
        conflicting_names: &["text"],
        ..FLAG
    },
    Row {
        name: "inline",
        help: "Move arguments that are variables into format strings, in the files in place, or print standard input with them",
        conflicting_names: &["literal", "text"],
        ..FLAG
    },
    Row {
        name: "mixed",
        help: "With --inline: also in calls that have other arguments; these stay",
        required_names: &["inline"],
        ..FLAG
    },
    Row {
        name: "diff",
        help: "With --fix or --inline: print what would change in files as a unified diff, and write no file",
        required_names: &["change"],
        conflicting_names: &NO_PREVIEW,
        ..FLAG
    },
    Row {
        name: "check",
        help: "With --fix or --inline: print the paths of the files that would change, and write no file",
        required_names: &["change"],
        conflicting_names: &NO_CHECK,
        ..FLAG
    },
    Row {
        name: "tokens",
        help: "Print the tokens of the string, in colours or each in a line; the fault goes to standard error",
        required_names: &["string"],
        conflicting_names: &["fix"],
        ..FLAG
    },
    Row {
        name: "all",
        help: "Draw all faults of the string, each with its id and whether it follows from another",
        required_names: &["string"],
        conflicting_names: &["fix", "tokens"],
        ..FLAG
    },
    Row {
        name: "list",
        help: "List the pieces and the faults of the string, each in a line, as formatread does",
        required_names: &["string"],
        conflicting_names: &["fix", "tokens", "all"],
        ..FLAG
    },
    Row {
        name: "args",
        value: Some("LIST"),
        help: "With --list: the number of positional arguments and the names of the others, as 2,w; those that are missing or unused are listed",
        required_names: &["list"],
        ..FLAG
    },
    Row {
        name: "format",
        value: Some("FORM"),
        help: "With --list: text, as formatread writes it, or json, an object in each line",
        values: &LISTINGS,
        required_names: &["list"],
        ..FLAG
    },
    Row {
        name: "mode",
        value: Some("MODE"),
        help: "What the string is",
        values: &MODES,
        default: Some("format"),
        required_names: &["string"],
        ..FLAG
    },
    Row {
        name: "color",
        value: Some("WHEN"),
        help: "Whether tokens and drawings have colours; auto: if standard output is a terminal with colours",
        values: &TIMES,
        default: Some("auto"),
        ..FLAG
    },
    Row {
        name: "width",
        value: Some("N"),
        help: "How many columns a row of a drawing has; longer lines are cut as rustc cuts them \
            [default: those of the terminal if COLUMNS says how many, otherwise 140]",
        ..FLAG
    },
    Row {
        name: "list-ids",
        help: "List the ids of all kinds of faults",
        ..FLAG
    },
    Row {
        name: "explain",
        value: Some("ID"),
        help: "Say what a kind of fault is, with an example",
        ..FLAG
    },
];

/// Returns an option.
#[inline(never)]
fn option<'a>(row: &'a Row) -> Result<Arg<'a>, AllocError> {
    let mut arg = Arg::new(row.name).long(row.name).help(row.help);
    arg = match row.value {
        Some(value) => arg.value_name(value),
        None => arg.action(ArgAction::SetTrue),
    };
    if row.is_repeated {
        arg = arg.action(ArgAction::Append);
    }
    if let Some(short) = row.short {
        arg = arg.short(short);
    }
    if !row.values.is_empty() {
        arg = arg.value_parser(row.values);
    }
    if let Some(value) = row.default {
        arg = arg.default_value(value);
    }
    arg.requires_all(row.required_names)?
        .conflicts_with_all(row.conflicting_names)
}

/// Adds all options to a command.
fn with_options<'a>(command: Command<'a>) -> Result<Command<'a>, AllocError> {
    let mut all = command;
    for row in &OPTIONS {
        all = all.arg(option(row)?)?;
    }
    Ok(all)
}

/// Returns the options and the arguments of the program.
#[inline(never)]
pub fn command<'a>() -> Result<Command<'a>, AllocError> {
    let base = Command::new("formatlint")
        .bin_name("formatlint")?
        .version(VERSION)
        .about("Finds the faults of format strings in Rust sources, as the Rust compiler does");
    let path = Arg::new("path")
        .value_name("PATH")
        .num_args(0..)
        .action(ArgAction::Append)
        .help(
            "The files and folders to read; - is standard input; the default is the current folder",
        );
    let with_arguments = with_options(base.arg(path)?)?;
    let string = ArgGroup::new("string").arg("literal")?;
    let change = ArgGroup::new("change").arg("fix")?;
    let with_group = with_arguments.group(string.arg("text")?)?;
    with_group.group(change.arg("inline")?.multiple(true))
}

/// Returns whether an option has this name.
pub fn is_option(name: &str) -> bool {
    for row in &OPTIONS {
        if row.name == name {
            return true;
        }
    }
    name == "help" || name == "version"
}
