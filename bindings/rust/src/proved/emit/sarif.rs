//! The form of SARIF 2.1.0. A function whose name begins with `put_` appends to `out`.

// Extracted from crates/emit/src/sarif.rt by tools/extract: not to be edited.
// That source has the contracts, and is proved. That this text means the same is only tested.

use crate::proved::emit::escapes::put_uri;
use crate::proved::emit::members::{put_comma, put_count, put_end, put_key, put_text, put_truth};
use crate::proved::emit::message::{level_name, Message, Span};
use crate::proved::fault_rules::{put_explanation, Rule};
use crate::shim::alloc::AllocError;
use crate::shim::prelude::*;

/// Adds a plain text as a message.
fn put_plain(out: &mut String, text: &str) -> Result<(), AllocError> {
    put_text(out, false, "text", text)?;
    put_end(out)?;
    Ok(())
}

/// Adds a member with a plain text as a message, after another one.
fn put_plain_member(out: &mut String, key: &str, text: &str) -> Result<(), AllocError> {
    put_key(out, true, key)?;
    put_plain(out, text)?;
    Ok(())
}

/// Adds a region.
#[inline(never)]
fn put_region(out: &mut String, span: &Span<'_>) -> Result<(), AllocError> {
    put_count(out, false, "startLine", span.start.line)?;
    put_count(out, true, "startColumn", span.start.column)?;
    put_count(out, true, "endLine", span.end.line)?;
    put_count(out, true, "endColumn", span.end.column)?;
    put_end(out)?;
    Ok(())
}

/// Returns a path as a URI.
fn uri_of(path: &str) -> Result<String, AllocError> {
    let mut text = String::new();
    put_uri(&mut text, path)?;
    Ok(text)
}

/// Adds a file.
fn put_artifact(out: &mut String, path: &str) -> Result<(), AllocError> {
    let text = uri_of(path)?;
    put_text(out, false, "uri", text.as_str())?;
    put_end(out)?;
    Ok(())
}

/// Adds a range of a file.
#[inline(never)]
fn put_physical(out: &mut String, path: &str, span: &Span<'_>) -> Result<(), AllocError> {
    put_key(out, false, "artifactLocation")?;
    put_artifact(out, path)?;
    put_key(out, true, "region")?;
    put_region(out, span)?;
    put_end(out)?;
    Ok(())
}

/// Adds a range of a file as a location.
fn put_location(out: &mut String, path: &str, span: &Span<'_>) -> Result<(), AllocError> {
    put_key(out, false, "physicalLocation")?;
    put_physical(out, path, span)?;
    put_end(out)?;
    Ok(())
}

/// Adds a range of a file as the only location.
fn put_locations(out: &mut String, path: &str, span: &Span<'_>) -> Result<(), AllocError> {
    out.push_str("[");
    put_location(out, path, span)?;
    out.push_str("]");
    Ok(())
}

/// Adds a message as a result.
#[inline(never)]
fn put_result(out: &mut String, message: &Message<'_>) -> Result<(), AllocError> {
    put_text(out, false, "ruleId", message.id)?;
    put_text(out, true, "level", level_name(message.level))?;
    put_plain_member(out, "message", message.title)?;
    put_key(out, true, "locations")?;
    put_locations(out, message.path, &message.primary)?;
    put_end(out)?;
    Ok(())
}

/// Appends a message as a result of a log. Another result comes before it unless `is_first` is
/// true.
pub fn put_sarif_result(
    out: &mut String,
    is_first: bool,
    message: &Message<'_>,
) -> Result<(), AllocError> {
    put_comma(out, !is_first)?;
    put_result(out, message)?;
    Ok(())
}

/// Returns the text of a rule.
fn explanation(rule: &Rule) -> Result<String, AllocError> {
    let mut text = String::new();
    put_explanation(&mut text, rule)?;
    Ok(text)
}

/// Adds a rule.
#[inline(never)]
fn put_rule(out: &mut String, rule: &Rule) -> Result<(), AllocError> {
    let text = explanation(rule)?;
    put_text(out, false, "id", rule.id)?;
    put_plain_member(out, "shortDescription", rule.summary)?;
    put_plain_member(out, "fullDescription", rule.explanation)?;
    put_plain_member(out, "help", text.as_str())?;
    put_end(out)?;
    Ok(())
}

/// Adds rules.
#[inline(never)]
fn put_rules(out: &mut String, rules: &[Rule]) -> Result<(), AllocError> {
    out.push_str("[");
    let mut is_later = false;
    for rule in rules {
        put_comma(out, is_later)?;
        put_rule(out, rule)?;
        is_later = true;
    }
    out.push_str("]");
    Ok(())
}

/// Adds the program of this version.
#[inline(never)]
fn put_driver(out: &mut String, version: &str, rules: &[Rule]) -> Result<(), AllocError> {
    put_text(out, false, "name", "formatlint")?;
    put_text(out, true, "version", version)?;
    put_key(out, true, "rules")?;
    put_rules(out, rules)?;
    put_end(out)?;
    Ok(())
}

/// Adds the program as a tool.
fn put_tool(out: &mut String, version: &str, rules: &[Rule]) -> Result<(), AllocError> {
    put_key(out, false, "driver")?;
    put_driver(out, version, rules)?;
    put_end(out)?;
    Ok(())
}

/// Adds the start of a run, up to its results.
#[inline(never)]
fn put_run_start(out: &mut String, version: &str, rules: &[Rule]) -> Result<(), AllocError> {
    put_key(out, false, "tool")?;
    put_tool(out, version, rules)?;
    put_text(out, true, "columnKind", "unicodeCodePoints")?;
    put_key(out, true, "results")?;
    out.push_str("[");
    Ok(())
}

/// Appends the start of a log, up to its results, which [`put_sarif_result`] appends; after them
/// [`put_sarif_end`] ends it.
#[inline(never)]
pub fn put_sarif_start(out: &mut String, version: &str, rules: &[Rule]) -> Result<(), AllocError> {
    put_text(
        out,
        false,
        "$schema",
        "https://json.schemastore.org/sarif-2.1.0.json",
    )?;
    put_text(out, true, "version", "2.1.0")?;
    put_key(out, true, "runs")?;
    out.push_str("[");
    put_run_start(out, version, rules)?;
    Ok(())
}

/// Adds an invocation: whether the program could read all files.
fn put_invocation(out: &mut String, is_whole: bool) -> Result<(), AllocError> {
    put_truth(out, false, "executionSuccessful", is_whole)?;
    put_end(out)?;
    Ok(())
}

/// Adds the only invocation: whether the program could read all files.
fn put_invocations(out: &mut String, is_whole: bool) -> Result<(), AllocError> {
    out.push_str("[");
    put_invocation(out, is_whole)?;
    out.push_str("]");
    Ok(())
}

/// Appends the end of a log, from the end of its results on: whether the program could read all
/// files (`is_whole`), and a line end.
#[inline(never)]
pub fn put_sarif_end(out: &mut String, is_whole: bool) -> Result<(), AllocError> {
    out.push_str("]");
    put_key(out, true, "invocations")?;
    put_invocations(out, is_whole)?;
    put_end(out)?;
    out.push_str("]");
    put_end(out)?;
    out.push_str("\n");
    Ok(())
}
