//! The result of a task for an input in UTF-8.

// Extracted from crates/format_lint/src/outputs.rt by tools/extract: not to be edited.
// That source has the contracts, and is proved. That this text means the same is only tested.

use super::faults::{faults_in, tokens_in, Source, Tokens};
use super::findings::{Finding, Findings};
use super::task::{OutputKind, Task};
use super::tokens::put_tokens;
use crate::proved::drawn_faults::put_drawing;
use crate::proved::drawn_lines::Picture;
use crate::proved::fault_fixes::fix;
use crate::proved::literal_faults::snippet_of;
use crate::proved::piece_listing::literal::{literal_text, LiteralText};
use crate::proved::piece_listing::verdict::RunFault;
use crate::proved::rustc_parse_format::ParseMode;
use crate::shim::alloc::AllocError;
use crate::shim::prelude::*;

/// The result of a task for an input.
pub struct Outputs {
    /// The text for the output.
    pub output: String,
    /// The drawing for the error output, where the output is no drawing.
    pub error_output: String,
    /// The number of mistakes that are left.
    pub mistake_count: usize,
}

/// Appends a line with the id of a fault, which says whether it follows from the one before.
#[inline(never)]
fn put_id(out: &mut String, finding: &Finding<'_>) -> Result<(), AllocError> {
    out.push_str(if finding.is_consequence {
        "follows: "
    } else {
        "fault: "
    });
    out.push_str(finding.fault.id());
    out.try_push('\n')?;
    Ok(())
}

/// Appends the drawing of a fault to a text.
fn put_finding(
    out: &mut String,
    mode: ParseMode,
    picture: &Picture<'_>,
    finding: &Finding<'_>,
) -> Result<(), AllocError> {
    let error = finding.fault.error()?;
    put_drawing(out, mode, picture, &error)?;
    Ok(())
}

/// Appends the drawings of faults to a text, each after a line with its id.
fn put_each_finding(
    out: &mut String,
    mode: ParseMode,
    picture: &Picture<'_>,
    findings: &[Finding<'_>],
) -> Result<(), AllocError> {
    for finding in findings {
        put_id(out, finding)?;
        put_finding(out, mode, picture, finding)?;
    }
    Ok(())
}

/// Appends a line that says how many faults are not drawn, if there are any.
#[inline(never)]
fn put_more_line(out: &mut String, count: usize) -> Result<(), AllocError> {
    if count == 0 {
        return Ok(());
    }
    let line = ::alloc::format!("and {count} more\n");
    out.push_str(line.as_str());
    Ok(())
}

/// Appends the drawing of the first of these faults to a text, if there is one.
fn put_first(
    out: &mut String,
    mode: ParseMode,
    picture: &Picture<'_>,
    findings: &[Finding<'_>],
) -> Result<(), AllocError> {
    if !findings.is_empty() {
        put_finding(out, mode, picture, &findings[0])?;
    }
    Ok(())
}

/// Appends the drawing of the first fault to a text, or the drawings of those that are kept and the
/// number of others. Returns how many faults are mistakes of their own, and `Err` if an allocation
/// fails.
#[inline(never)]
fn put_drawings(
    out: &mut String,
    all: bool,
    mode: ParseMode,
    picture: &Picture<'_>,
    faults: &Findings<'_>,
) -> Result<usize, AllocError> {
    if all {
        put_each_finding(out, mode, picture, faults.first.as_slice())?;
        put_more_line(out, faults.others)?;
    } else {
        put_first(out, mode, picture, faults.first.as_slice())?;
    }
    Ok(faults.mistake_count)
}

/// Appends the drawing of a source with these faults to a text. Returns how many of them are
/// mistakes of their own, and `Err` if an allocation fails.
#[inline(never)]
fn put_faults(
    out: &mut String,
    all: bool,
    task: Task<'_>,
    source: Source<'_>,
    faults: &Findings<'_>,
) -> Result<usize, AllocError> {
    let picture = Picture {
        path: task.path,
        source: source.lines,
        line_start: source.line_start,
        literal_start: source.start,
        width: task.width,
        colours: task.colours,
    };
    put_drawings(out, all, task.mode, &picture, faults)
}

/// Returns the drawing of a source as the output.
#[inline(never)]
fn drawn_output(all: bool, task: Task<'_>, source: Source<'_>) -> Result<Outputs, AllocError> {
    let faults = faults_in(task.mode, source)?;
    let mut output = String::new();
    let mistake_count = put_faults(&mut output, all, task, source, &faults)?;
    Ok(Outputs {
        output,
        error_output: String::new(),
        mistake_count,
    })
}

/// Returns an output with the drawing of the first of a source's faults as the error output.
#[inline(never)]
fn with_drawing(
    output: String,
    task: Task<'_>,
    source: Source<'_>,
    faults: &Findings<'_>,
) -> Result<Outputs, AllocError> {
    let mut error_output = String::new();
    let mistake_count = put_faults(&mut error_output, false, task, source, faults)?;
    Ok(Outputs {
        output,
        error_output,
        mistake_count,
    })
}

/// Returns a source as it is written and a line end, with the drawing of its first fault.
#[inline(never)]
fn kept_output(task: Task<'_>, source: Source<'_>) -> Result<Outputs, AllocError> {
    let mut output = String::new();
    output.push_str(source.literal.unwrap_or(source.text));
    output.push_str("\n");
    let faults = faults_in(task.mode, source)?;
    Ok(with_drawing(output, task, source, &faults)?)
}

/// Returns the literal of a source with the edits that its faults suggest, with the drawing of the
/// first fault that it then has.
#[inline(never)]
fn fixed_output(task: Task<'_>, source: Source<'_>) -> Result<Outputs, AllocError> {
    let Some(literal) = source.literal else {
        return Ok(kept_output(task, source)?);
    };
    match fix(source.text, source.style, literal, false, task.mode)? {
        Some(fixed_literal) => {
            let fixed_source = Source {
                text: fixed_literal.text.as_str(),
                style: source.style,
                literal: Some(fixed_literal.snippet.as_str()),
                lines: fixed_literal.snippet.as_str(),
                line_start: 1,
                start: 0,
            };
            Ok(kept_output(task, fixed_source)?)
        }
        None => Ok(kept_output(task, source)?),
    }
}

/// Returns the tokens of a source, in colours with a line end after them or each in a line, with
/// the drawing of its first fault.
#[inline(never)]
fn token_output(task: Task<'_>, source: Source<'_>) -> Result<Outputs, AllocError> {
    let source_text = source.literal.unwrap_or(source.text);
    let Tokens { tokens, faults } = tokens_in(task.mode, source)?;
    let mut output = String::new();
    put_tokens(&mut output, task.colours, source_text, tokens.as_slice())?;
    if task.colours {
        output.push_str("\n");
    }
    Ok(with_drawing(output, task, source, &faults)?)
}

/// Returns the result of a task for a source.
#[inline(never)]
fn outputs_of(source: Source<'_>, task: Task<'_>) -> Result<Outputs, AllocError> {
    match task.output_kind {
        OutputKind::Fault => drawn_output(false, task, source),
        OutputKind::All => drawn_output(true, task, source),
        OutputKind::Tokens => token_output(task, source),
        OutputKind::Fix => fixed_output(task, source),
    }
}

/// Returns the result of a task for the input as a string literal, perhaps with a byte order mark
/// before it and white space around it. Returns `Err` if the input is not a string literal or an
/// allocation fails.
#[inline(never)]
fn outputs_of_literal(input: &str, task: Task<'_>) -> Result<Outputs, RunFault> {
    let snippet = snippet_of(input);
    let Some(LiteralText { text, style }) = literal_text(snippet.text)? else {
        return Err(RunFault::NotLiteral);
    };
    let source = Source {
        text: text.as_str(),
        style,
        literal: Some(snippet.text),
        lines: snippet.source,
        line_start: 1,
        start: snippet.start,
    };
    Ok(outputs_of(source, task)?)
}

/// Returns a text that is in no literal, with the lines that it is drawn in.
fn text_source<'a>(text: &'a str, lines: &'a str) -> Source<'a> {
    Source {
        text,
        style: None,
        literal: None,
        lines,
        line_start: 0,
        start: 0,
    }
}

/// Returns the result of a task for an input. Returns `Err` if the task needs a string literal and
/// the input is none, or if an allocation fails.
#[inline(never)]
pub fn outputs_of_input(input: &str, task: Task<'_>) -> Result<Outputs, RunFault> {
    if task.is_literal {
        return outputs_of_literal(input, task);
    }
    // without a literal a span is one more than in the text, and so is the place in these lines
    let lines = ::alloc::format!("\n{input}");
    Ok(outputs_of(text_source(input, lines.as_str()), task)?)
}
