//! The findings of a call: its faults, in words and with their places in the file.

// Extracted from crates/source_lint/src/findings.rt by tools/extract: not to be edited.
// That source has the contracts, and is proved. That this text means the same is only tested.

use crate::proved::asm_lint::{labels, primary_span, Site};
use crate::proved::call_faults::{CallEdit, CallFault, CallHelp, CallReport};
use crate::proved::source_lint::labels::{help, notes};
use crate::proved::source_report::Finding;
use crate::shim::alloc::AllocError;
use crate::shim::prelude::*;

/// Returns whether a fault is only a warning.
#[inline]
fn is_warning(fault: &CallFault<'_>) -> bool {
    matches!(fault, CallFault::NameUsedByIndex { .. })
}

/// Returns whether a fault is one of the format string.
#[inline]
fn is_text_fault(fault: &CallFault<'_>) -> bool {
    matches!(fault, CallFault::Text(_))
}

/// Returns whether one of these edits copies source.
fn copies(edits: &[CallEdit]) -> bool {
    for edit in edits {
        if edit.copied_spot.is_some() {
            return true;
        }
    }
    false
}

/// Returns the help that counts where the number of arguments is known, and where it is not.
fn counted_help(help: Option<CallHelp>, is_whole: bool) -> Option<CallHelp> {
    match help {
        None => None,
        Some(help) => {
            if is_whole || !copies(&help.edits) {
                Some(help)
            } else {
                None
            }
        }
    }
}

/// Returns the finding of a fault of a call, whose number of arguments is known or not.
fn finding<'c>(
    site: Site<'_, '_>,
    report: &CallReport<'c>,
    fault: &CallFault<'c>,
    is_whole: bool,
) -> Result<Finding, AllocError> {
    let mut title = String::new();
    report.put_title(&mut title, fault)?;
    let labels = labels(site, report.labels(fault)?)?;
    let span = primary_span(site, &labels);
    let notes = notes(site, report.notes(fault)?)?;
    let call_help = counted_help(report.help(fault)?, is_whole);
    let help = help(site, call_help)?;
    Ok(Finding {
        is_warning: is_warning(fault),
        id: fault.id(),
        title,
        span,
        labels,
        notes,
        help,
    })
}

/// Adds the finding of a fault of a call, unless only that of its string counts.
fn put_finding<'c>(
    findings: &mut Vec<Finding>,
    site: Site<'_, '_>,
    report: &CallReport<'c>,
    fault: &CallFault<'c>,
    is_whole: bool,
) -> Result<(), AllocError> {
    if is_whole || is_text_fault(fault) {
        findings.push(finding(site, report, fault, is_whole)?);
    }
    Ok(())
}

/// Adds the findings of the faults of a call, or only that of its string.
pub fn put_findings<'c>(
    findings: &mut Vec<Finding>,
    site: Site<'_, '_>,
    report: &CallReport<'c>,
    is_whole: bool,
) -> Result<(), AllocError> {
    for fault in &report.faults {
        put_finding(findings, site, report, fault, is_whole)?;
    }
    Ok(())
}
