//! The forms of messages.

// Extracted from crates/emit/src/form.rt by tools/extract: not to be edited.
// That source has the contracts, and is proved. That this text means the same is only tested.

use crate::proved::emit::file::{message_of, File};
use crate::proved::emit::github::put_github;
use crate::proved::emit::human::put_human;
use crate::proved::emit::json_findings::put_finding_line;
use crate::proved::emit::sarif::{put_sarif_end, put_sarif_result, put_sarif_start};
use crate::proved::emit::short::put_short;
use crate::proved::fault_rules::RULES;
use crate::proved::source_report::Finding;
use crate::shim::alloc::AllocError;
use crate::shim::prelude::*;

/// The form of messages.
#[derive(Clone, Copy, PartialEq)]
pub enum Form {
    /// As rustc draws them.
    Human {
        /// Whether the drawings have colours.
        colours: bool,
        /// How many columns a row of a drawing has.
        width: usize,
    },
    /// A line for an editor.
    Short,
    /// A line of JSON.
    Json {
        /// How many columns a row of the drawing in it has.
        width: usize,
    },
    /// A workflow command of GitHub.
    Github,
    /// A log of SARIF.
    Sarif,
}

/// Appends a finding in a form.
#[inline(never)]
pub fn put_finding<'a>(
    out: &mut String,
    form: Form,
    is_first: bool,
    file: &'a File<'a>,
    finding: &'a Finding,
) -> Result<(), AllocError> {
    let message = message_of(file, finding);
    match form {
        Form::Human { colours, width } => put_human(out, colours, width, file, finding, &message),
        Form::Short => put_short(out, &message),
        Form::Json { width } => put_finding_line(out, width, file, finding, &message),
        Form::Github => put_github(out, &message),
        Form::Sarif => put_sarif_result(out, is_first, &message),
    }
}

/// Appends the start of the output, which comes before all messages.
pub fn put_start(out: &mut String, form: Form, version: &str) -> Result<(), AllocError> {
    match form {
        Form::Sarif => put_sarif_start(out, version, RULES.as_slice()),
        _ => Ok(()),
    }
}

/// Appends the end of the output, which comes after all messages.
pub fn put_end(out: &mut String, form: Form, is_whole: bool) -> Result<(), AllocError> {
    match form {
        Form::Sarif => put_sarif_end(out, is_whole),
        _ => Ok(()),
    }
}
