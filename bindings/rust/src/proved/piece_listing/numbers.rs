//! Numbers and spans in decimal digits. Each function that returns a `Result` returns `Err` if an
//! allocation fails; `put_` in a name means that it appends to `out`.

// Extracted from crates/piece_listing/src/numbers.rt by tools/extract: not to be edited.
// That source has the contracts, and is proved. That this text means the same is only tested.

use crate::shim::alloc::AllocError;
use crate::shim::itoa::{write_digits, Buffer};
use crate::shim::prelude::*;
use core::ops::Range;

/// The most bytes of a span after a mark: the mark, two dots and two numbers of up to 20 digits.
const SPAN_BYTES: usize = 43;

/// Appends a label and then a number in decimal digits to `out`.
#[inline(always)]
pub(crate) fn put_number(out: &mut String, label: &str, number: usize) -> Result<(), AllocError> {
    out.push_str(label);
    if number < 10 {
        out.push(char::from(b'0' + number as u8));
    } else {
        out.push_str(Buffer::new().format(number));
    }
    Ok(())
}

/// Writes a mark and then a span so that they end where `row` ends, and returns where they start.
#[inline(never)]
fn write_span(row: &mut [u8; SPAN_BYTES], mark: char, start: usize, end: usize) -> usize {
    let dots = write_digits(end as u64, row, SPAN_BYTES) - 2;
    row[dots + 1] = b'.';
    row[dots] = b'.';
    let first = write_digits(start as u64, row, dots) - 1;
    row[first] = mark as u8;
    first
}

/// Appends a mark, which is an ASCII character, and then a span to `out`: its two offsets in
/// decimal digits with `..` between them.
#[inline(never)]
pub fn put_span(out: &mut String, mark: char, span: &Range<usize>) -> Result<(), AllocError> {
    let mut row = [0; SPAN_BYTES];
    let first = write_span(&mut row, mark, span.start, span.end);
    out.try_push_str(crate::shim::proved_text(&row[first..]))
}
