//! Findings in the form of JSON.

// Extracted from crates/emit/src/json_findings.rt by tools/extract: not to be edited.
// That source has the contracts, and is proved. That this text means the same is only tested.

use crate::proved::emit::file::{span_of, File};
use crate::proved::emit::human::{put_human, MOST};
use crate::proved::emit::json_lines::put_json;
use crate::proved::emit::message::{Child, ChildLevel, Message, Span, Suggestion};
use crate::proved::source_report::{is_applicable, suggestion_of, Finding, Help, LabelSuggestion};
use crate::shim::alloc::AllocError;
use crate::shim::prelude::*;
use core::ops::Range;

/// How many traits rustc suggests for one that is unknown.
const TRAITS: usize = 9;

/// Returns a suggestion that is in no drawing: to write a trait that is known, of which this is the
/// number, where another one stands. Returns `None` for other faults and numbers.
#[inline(never)]
fn trait_suggestion(id: &str, number: usize) -> Option<LabelSuggestion> {
    let (advice, text) = match number {
        0 => ("use the `Display` trait", ""),
        1 => ("use the `Debug` trait", "?"),
        2 => ("use the `LowerExp` trait", "e"),
        3 => ("use the `UpperExp` trait", "E"),
        4 => ("use the `Octal` trait", "o"),
        5 => ("use the `Pointer` trait", "p"),
        6 => ("use the `Binary` trait", "b"),
        7 => ("use the `LowerHex` trait", "x"),
        8 => ("use the `UpperHex` trait", "X"),
        _ => return None,
    };
    if id != "unknown-trait" {
        return None;
    }
    Some(LabelSuggestion {
        advice,
        text,
        is_sure: false,
    })
}

/// Returns the lines of a text around a range, without the last LF and a byte order mark at the
/// start of the text, or `None` if they have more bytes than a drawing is about.
#[inline(never)]
fn lines_around(text: &str, start: usize, end: usize) -> Option<&str> {
    let window_start = text.boundary_at_most(start.saturating_sub(MOST + 1));
    let line_start = match text.get(window_start..start)?.rsplit_once('\n') {
        Some((head, _)) => window_start.saturating_add(head.len()).saturating_add(1),
        None if window_start > 0 => return None,
        None => text.len() - text.strip_prefix('\u{feff}').unwrap_or(text).len(),
    };
    let window_end = text.boundary_at_most(end.saturating_add(MOST + 1));
    let line_end = match text.get(end..window_end)?.split_once('\n') {
        Some((tail, _)) => end.saturating_add(tail.len()),
        None if window_end < text.len() => return None,
        None => text.len(),
    };
    let lines = text.get(line_start..line_end)?;
    if lines.len() > MOST {
        None
    } else {
        Some(lines)
    }
}

/// Returns a range of a file as messages of JSON have it, without a label or a suggestion.
fn json_span<'a>(file: &File<'a>, range: &Range<usize>) -> Span<'a> {
    let mut span = span_of(file, range);
    span.lines = lines_around(file.text, span.byte_start, span.byte_end);
    span
}

/// Returns the labels of a finding as ranges of its message. One that is a suggestion is a child of
/// the message, and no label.
#[inline(never)]
fn label_spans<'a>(file: &File<'a>, finding: &'a Finding) -> Result<Vec<Span<'a>>, AllocError> {
    let mut spans = Vec::new();
    let mut has_primary = false;
    for label in &finding.labels {
        let is_suggestion = suggestion_of(label.text.as_str()).is_some();
        if is_suggestion && (has_primary || !label.is_primary) {
            continue;
        }
        has_primary = has_primary || label.is_primary;
        let mut span = json_span(file, &label.range);
        span.is_primary = label.is_primary;
        if !label.text.is_empty() && !is_suggestion {
            span.label = Some(label.text.as_str());
        }
        spans.push(span);
    }
    Ok(spans)
}

/// Returns whether rustc calls the help of a fault with this id applicable by a machine.
#[inline]
fn is_sure(id: &str) -> bool {
    is_applicable(id) || id == "debug-equals" || id == "redundant-argument"
}

/// Returns the edits of a help as ranges of its message.
#[inline(never)]
fn edit_spans<'a>(
    file: &File<'a>,
    help: &'a Help,
    is_sure: bool,
) -> Result<Vec<Span<'a>>, AllocError> {
    let mut spans = Vec::new();
    for edit in &help.edits {
        let mut span = json_span(file, &edit.range);
        span.suggestion = Some(Suggestion {
            text: edit.text.as_str(),
            is_sure,
        });
        spans.push(span);
    }
    Ok(spans)
}

/// Returns the range of a suggestion that is drawn as a label.
#[inline(never)]
fn suggestion_spans<'a>(
    file: &File<'a>,
    range: &Range<usize>,
    suggestion: LabelSuggestion,
) -> Result<Vec<Span<'a>>, AllocError> {
    let mut span = json_span(file, range);
    span.suggestion = Some(Suggestion {
        text: suggestion.text,
        is_sure: suggestion.is_sure,
    });
    let mut spans = Vec::new();
    spans.push(span);
    Ok(spans)
}

/// Returns the ranges of the notes of a finding, then those of its suggestions that are not drawn,
/// of those among its labels, and of its help.
#[inline(never)]
fn child_spans<'a>(
    file: &File<'a>,
    finding: &'a Finding,
) -> Result<Vec<Vec<Span<'a>>>, AllocError> {
    let mut all = Vec::new();
    for note in &finding.notes {
        let mut spans = Vec::new();
        for range in &note.ranges {
            spans.push(json_span(file, range));
        }
        all.push(spans);
    }
    for number in 0..TRAITS {
        if let Some(suggestion) = trait_suggestion(finding.id, number) {
            all.push(suggestion_spans(file, &finding.span, suggestion)?);
        }
    }
    for label in &finding.labels {
        if let Some(suggestion) = suggestion_of(label.text.as_str()) {
            all.push(suggestion_spans(file, &label.range, suggestion)?);
        }
    }
    if let Some(help) = &finding.help {
        all.push(edit_spans(file, help, is_sure(finding.id))?);
    }
    Ok(all)
}

/// Returns the notes of a finding, its suggestions that are not drawn, those among its labels and
/// its help, with these ranges.
#[inline(never)]
fn children<'a, 's>(
    finding: &'a Finding,
    ranges: &'s [Vec<Span<'a>>],
) -> Result<Vec<Child<'a, 's>>, AllocError> {
    let mut children = Vec::new();
    for (note, spans) in finding.notes.iter().zip(ranges) {
        children.push(Child {
            level: ChildLevel::Note,
            text: note.text.as_str(),
            spans: spans.as_slice(),
        });
    }
    let mut index = finding.notes.len();
    for number in 0..TRAITS {
        if let (Some(suggestion), Some(spans)) =
            (trait_suggestion(finding.id, number), ranges.get(index))
        {
            children.push(Child {
                level: ChildLevel::Help,
                text: suggestion.advice,
                spans: spans.as_slice(),
            });
            index = index.saturating_add(1);
        }
    }
    for label in &finding.labels {
        if let (Some(suggestion), Some(spans)) =
            (suggestion_of(label.text.as_str()), ranges.get(index))
        {
            children.push(Child {
                level: ChildLevel::Help,
                text: suggestion.advice,
                spans: spans.as_slice(),
            });
            index = index.saturating_add(1);
        }
    }
    if let (Some(help), Some(spans)) = (&finding.help, ranges.last()) {
        children.push(Child {
            level: ChildLevel::Help,
            text: help.text.as_str(),
            spans: spans.as_slice(),
        });
    }
    Ok(children)
}

/// Appends a message as a line of JSON, with a drawing of this width.
#[inline(never)]
pub fn put_finding_line<'a>(
    out: &mut String,
    width: usize,
    file: &'a File<'a>,
    finding: &'a Finding,
    message: &Message<'a>,
) -> Result<(), AllocError> {
    let mut rendered = String::new();
    put_human(&mut rendered, false, width, file, finding, message)?;
    let spans = label_spans(file, finding)?;
    let ranges = child_spans(file, finding)?;
    let children = children(finding, ranges.as_slice())?;
    put_json(
        out,
        message,
        spans.as_slice(),
        children.as_slice(),
        rendered.as_str(),
    )
}
