//! The lines of a report on missing and unused arguments. Each function of this module appends to a
//! text, and returns `Err` if an allocation fails; the text may then have a part of the lines, or
//! none.

// Extracted from crates/listing_json/src/report.rt by tools/extract: not to be edited.
// That source has the contracts, and is proved. That this text means the same is only tested.

use super::calls::{begin_line, end_line};
use super::fields::{put_index, put_name};
use crate::proved::placeholder_check::Report;
use crate::shim::alloc::AllocError;
use crate::shim::prelude::*;

/// Appends the line of an index.
fn put_index_line(out: &mut Vec<u8>, kind: &str, index: usize) -> Result<(), AllocError> {
    let mut writer = begin_line(out);
    put_index(&mut writer, kind, index)?;
    end_line(out, writer)?;
    Ok(())
}

/// Appends a line for each index.
fn put_indices(out: &mut Vec<u8>, kind: &str, indices: &[usize]) -> Result<(), AllocError> {
    for index in indices {
        put_index_line(out, kind, *index)?;
    }
    Ok(())
}

/// Appends the line of a name.
fn put_name_line(out: &mut Vec<u8>, kind: &str, name: &str) -> Result<(), AllocError> {
    let mut writer = begin_line(out);
    put_name(&mut writer, kind, name)?;
    end_line(out, writer)?;
    Ok(())
}

/// Appends a line for each name.
fn put_names(out: &mut Vec<u8>, kind: &str, names: &[&str]) -> Result<(), AllocError> {
    for name in names {
        put_name_line(out, kind, name)?;
    }
    Ok(())
}

/// Appends a line for each entry of a report.
#[inline(never)]
pub fn put_report(out: &mut Vec<u8>, report: &Report<'_>) -> Result<(), AllocError> {
    put_indices(out, "missing-index", report.missing_index.as_slice())?;
    put_names(out, "missing-name", report.missing_name.as_slice())?;
    put_indices(out, "unused-index", report.unused_index.as_slice())?;
    put_names(out, "unused-name", report.unused_name.as_slice())?;
    Ok(())
}
