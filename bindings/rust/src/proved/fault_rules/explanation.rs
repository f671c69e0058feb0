//! The text of a rule.

// Extracted from crates/fault_rules/src/explanation.rt by tools/extract: not to be edited.
// That source has the contracts, and is proved. That this text means the same is only tested.

use crate::proved::fault_rules::rules::Rule;
use crate::shim::alloc::AllocError;
use crate::shim::prelude::*;

/// Appends a line that says which example follows, and the example.
#[inline(never)]
fn put_example(out: &mut String, heading: &str, example: &str) -> Result<(), AllocError> {
    out.push_str("\n");
    out.push_str(heading);
    out.push_str(":\n\n    ");
    out.push_str(example);
    out.push_str("\n");
    Ok(())
}

/// Appends the text of a rule: its id and its summary, its explanation, and the example with and
/// without the fault.
#[inline(never)]
pub fn put_explanation(out: &mut String, rule: &Rule) -> Result<(), AllocError> {
    out.push_str(rule.id);
    out.push_str(": ");
    out.push_str(rule.summary);
    out.push_str("\n\n");
    out.push_str(rule.explanation);
    out.push_str("\n");
    put_example(out, "With the fault", rule.example)?;
    put_example(out, "Without it", rule.correction)?;
    Ok(())
}
