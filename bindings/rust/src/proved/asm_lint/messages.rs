//! The findings in the texts of attributes: their faults, in words and with their places in the
//! file.

// Extracted from crates/asm_lint/src/messages.rt by tools/extract: not to be edited.
// That source has the contracts, and is proved. That this text means the same is only tested.

use crate::proved::asm_lint::literals::{dropped_crs, read_literal};
use crate::proved::asm_lint::placing::finding_of;
use crate::proved::asm_lint::spans::Site;
use crate::proved::message_faults::{message_faults, Message, MessageFault};
use crate::proved::rust_trees::Token;
use crate::proved::source_report::Finding;
use crate::shim::alloc::AllocError;
use crate::shim::prelude::*;
use alloc::collections::BTreeSet;

/// A trait that an attribute stands before.
#[derive(Clone, Copy)]
pub struct Item<'s, 'a> {
    /// Its name.
    pub name: &'a str,
    /// Its parameters that are types or constants.
    pub parameters: &'s [&'a str],
    /// The set of their names.
    pub names: &'s BTreeSet<&'a str>,
}

/// Returns the finding of a fault, for a trait of this name.
#[inline]
fn finding(
    site: Site<'_, '_>,
    name: &str,
    fault: &MessageFault<'_>,
) -> Result<Finding, AllocError> {
    let diagnostic = fault.diagnostic(name)?;
    finding_of(site, diagnostic)
}

/// Adds the findings of faults, for a trait of this name.
fn put_findings(
    findings: &mut Vec<Finding>,
    site: Site<'_, '_>,
    name: &str,
    faults: &[MessageFault<'_>],
) -> Result<(), AllocError> {
    for fault in faults {
        findings.push(finding(site, name, fault)?);
    }
    Ok(())
}

/// Reads the text that a literal stands for, before a trait, and adds its findings.
#[inline(never)]
pub fn read_text<'a>(
    findings: &mut Vec<Finding>,
    text: &'a str,
    item: Item<'_, '_>,
    token: &Token<'a>,
) -> Result<(), AllocError> {
    let Some(literal) = read_literal(token.text, false)? else {
        return Ok(());
    };
    let crs = dropped_crs(token.text)?;
    let site = Site {
        text,
        tokens: &[],
        literal: *token,
        crs: &crs,
        arguments: &[],
        name: 0,
        close: 0,
    };
    let message = Message {
        text: literal.text.as_str(),
        snippet: Some(literal.snippet.as_str()),
        parameters: Some(item.names),
    };
    let faults = message_faults(message)?;
    put_findings(findings, site, item.name, &faults)?;
    Ok(())
}
