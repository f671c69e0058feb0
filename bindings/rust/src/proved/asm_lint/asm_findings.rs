//! The findings of a call of a macro for inline assembly: its faults, in words and with their
//! places in the file.

// Extracted from crates/asm_lint/src/asm_findings.rt by tools/extract: not to be edited.
// That source has the contracts, and is proved. That this text means the same is only tested.

use crate::proved::asm_faults::{AsmCall, AsmFault, AsmLabel, AsmNote, AsmSpot};
use crate::proved::asm_lint::literals::Literal;
use crate::proved::asm_lint::spans::{range_in, spot_range, Site};
use crate::proved::format_calls::Argument;
use crate::proved::rust_trees::Token;
use crate::proved::source_report::{Finding, Help, Label, Note};
use crate::proved::text_faults::Spot;
use crate::shim::alloc::AllocError;
use crate::shim::prelude::*;
use core::ops::Range;

/// A template of a call.
pub struct ReadTemplate<'a> {
    /// Its literal.
    pub token: Token<'a>,
    /// The CRs of the literal that stand before LF, as `dropped_crs` returns them.
    pub crs: Vec<usize>,
    /// The literal with the text that it stands for.
    pub literal: Literal,
}

/// A call of a macro for inline assembly in its file.
#[derive(Clone, Copy)]
pub struct AsmSite<'s, 'a> {
    /// The text of the file.
    pub text: &'a str,
    /// The tokens of the part of the file that has the call.
    pub tokens: &'s [Token<'a>],
    /// Its templates.
    pub templates: &'s [ReadTemplate<'a>],
    /// The arguments that are its operands.
    pub operands: &'s [Argument],
}

/// Returns the bytes of the file that a place of a call is.
#[inline(never)]
fn asm_range(site: AsmSite<'_, '_>, spot: AsmSpot) -> Range<usize> {
    let (index, place) = match spot {
        AsmSpot::Operand(operand) => (0, Spot::Argument(operand)),
        AsmSpot::Template(template) => (template, Spot::Literal),
        AsmSpot::Bytes {
            template,
            start,
            end,
        } => (template, Spot::Bytes { start, end }),
    };
    let Some(template) = site.templates.get(index) else {
        return range_in(site.text, 0, 0);
    };
    let one = Site {
        text: site.text,
        tokens: site.tokens,
        literal: template.token,
        crs: &template.crs,
        arguments: site.operands,
        name: 0,
        close: 0,
    };
    spot_range(one, place)
}

/// Returns labels with their ranges.
#[inline(never)]
fn labels(site: AsmSite<'_, '_>, labels: Vec<AsmLabel>) -> Result<Vec<Label>, AllocError> {
    let mut list = Vec::new();
    for label in labels {
        list.push(Label {
            range: asm_range(site, label.spot),
            is_primary: label.is_primary,
            text: label.text,
        });
    }
    Ok(list)
}

/// Returns the range of a place, if there is one.
fn ranges(site: AsmSite<'_, '_>, spot: Option<AsmSpot>) -> Result<Vec<Range<usize>>, AllocError> {
    let mut ranges = Vec::new();
    if let Some(spot) = spot {
        ranges.push(asm_range(site, spot));
    }
    Ok(ranges)
}

/// Returns notes with the ranges that they show.
#[inline(never)]
fn notes(site: AsmSite<'_, '_>, notes: Vec<AsmNote>) -> Result<Vec<Note>, AllocError> {
    let mut list = Vec::new();
    for note in notes {
        let ranges = ranges(site, note.spot)?;
        list.push(Note {
            text: note.text,
            ranges,
        });
    }
    Ok(list)
}

/// Returns a help, which has no edits. Does not allocate.
fn help(help: Option<AsmNote>) -> Option<Help> {
    match help {
        None => None,
        Some(help) => Some(Help {
            text: help.text,
            edits: Vec::new(),
        }),
    }
}

/// Returns the range of the primary label that comes first in the file, or an empty one if there is
/// none.
#[inline(never)]
fn primary_span(site: AsmSite<'_, '_>, labels: &[Label]) -> Range<usize> {
    let mut start = 0;
    let mut end = 0;
    let mut is_found = false;
    for label in labels {
        if label.is_primary && (!is_found || label.range.start < start) {
            start = label.range.start;
            end = label.range.end;
            is_found = true;
        }
    }
    range_in(site.text, start, end)
}

/// Returns the finding of a fault of a call.
#[inline(never)]
fn finding<'c>(
    site: AsmSite<'_, '_>,
    call: &AsmCall<'c>,
    fault: &AsmFault<'c>,
) -> Result<Finding, AllocError> {
    let mut title = String::new();
    call.put_title(&mut title, fault)?;
    let labels = labels(site, call.labels(fault)?)?;
    let span = primary_span(site, &labels);
    let notes = notes(site, call.notes(fault)?)?;
    let help = help(call.help(fault)?);
    Ok(Finding {
        is_warning: false,
        id: fault.id(),
        title,
        span,
        labels,
        notes,
        help,
    })
}

/// Returns whether a fault is one of a template.
#[inline]
fn is_template_fault(fault: &AsmFault<'_>) -> bool {
    matches!(fault, AsmFault::Text { .. })
}

/// Adds the finding of a fault of a call, unless only that of a template counts.
fn put_finding<'c>(
    findings: &mut Vec<Finding>,
    site: AsmSite<'_, '_>,
    call: &AsmCall<'c>,
    fault: &AsmFault<'c>,
    is_whole: bool,
) -> Result<(), AllocError> {
    if is_whole || is_template_fault(fault) {
        findings.push(finding(site, call, fault)?);
    }
    Ok(())
}

/// Adds the findings of the faults of a call, or only that of a template.
pub fn put_findings<'c>(
    findings: &mut Vec<Finding>,
    site: AsmSite<'_, '_>,
    call: &AsmCall<'c>,
    is_whole: bool,
) -> Result<(), AllocError> {
    for fault in &call.faults {
        put_finding(findings, site, call, fault, is_whole)?;
    }
    Ok(())
}
