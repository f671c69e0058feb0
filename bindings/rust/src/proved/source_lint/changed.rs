//! The faults of a file that is another one with changes in its calls alone.

// Extracted from crates/source_lint/src/changed.rt by tools/extract: not to be edited.
// That source has the contracts, and is proved. That this text means the same is only tested.

use crate::proved::format_calls::{calls, next_known_part, Gaps, Part, Table};
use crate::proved::rust_trees::Tokens;
use crate::proved::source_lint::lint::{read_calls, report_with, Readings};
use crate::proved::source_lint::macros::{macro_names, File};
use crate::proved::source_report::{Options, Report};
use crate::shim::alloc::AllocError;
use crate::shim::prelude::*;

/// Reads the calls of a file, part by part, where these texts stand between the parts. Returns
/// `None` if others do, and `Err` if an allocation fails.
fn read_parts(
    file: File<'_, '_>,
    table: &Table<'_>,
    gaps: &Gaps<'_>,
) -> Result<Option<Readings>, AllocError> {
    let mut readings = Readings {
        calls: Vec::new(),
        findings: Vec::new(),
    };
    let mut rest = Tokens::new(file.text);
    for gap in &gaps.fronts {
        let Some(source) = next_known_part(&mut rest, table, gap)? else {
            return Ok(None);
        };
        let part = Part::new(source)?;
        let calls = calls(part.source(), table)?;
        read_calls(&mut readings, file, &part, &calls)?;
    }
    if rest.rest() == gaps.last {
        Ok(Some(readings))
    } else {
        Ok(None)
    }
}

/// Reads a source file as [`file_faults`] does, where these texts stand between its parts. Returns
/// `None` if others do, and `Err` if an allocation fails.
pub fn changed_file_faults(
    text: &str,
    options: &Options<'_>,
    gaps: &Gaps<'_>,
) -> Result<Option<Report>, AllocError> {
    let names = macro_names(text)?;
    let file = File {
        text,
        macros: &names,
        own_macros: &[],
        is_from_2021: options.is_from_2021,
    };
    let Some(readings) = read_parts(file, &options.table, gaps)? else {
        return Ok(None);
    };
    let report = report_with(text, readings, None)?;
    Ok(Some(report))
}
