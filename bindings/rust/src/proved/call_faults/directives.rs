//! Directives of `printf`, as `%d`, and variables of a shell, as `$x`, in a format string.

// Extracted from crates/call_faults/src/directives.rt by tools/extract: not to be edited.
// That source has the contracts, and is proved. That this text means the same is only tested.

use crate::proved::rustc_parse_format::Piece;

/// Returns whether a byte is of a length in a directive of `printf`, before its conversion.
#[inline(never)]
fn is_length(byte: u8) -> bool {
    byte == b'h'
        || byte == b'j'
        || byte == b'l'
        || byte == b'q'
        || byte == b't'
        || byte == b'z'
        || byte == b'I'
        || byte == b'L'
}

/// Returns whether a byte makes a directive or a variable of what begins with `mark`: `%`, `$`, or
/// 0 for nothing.
#[inline(never)]
fn ends_directive(mark: u8, byte: u8) -> bool {
    (mark == b'%' && byte != b'%' && !is_length(byte))
        || (mark == b'$' && (byte == b'_' || byte.is_ascii_alphanumeric()))
}

/// Returns the mark with which a directive may begin after a byte, or 0 for none. A mark after
/// itself stands for itself.
#[inline(never)]
fn next_mark(mark: u8, byte: u8) -> u8 {
    if mark == b'%' && is_length(byte) {
        mark
    } else if byte != mark && (byte == b'%' || byte == b'$') {
        byte
    } else {
        0
    }
}

/// Returns whether a text has a directive or a variable.
#[inline(never)]
fn has_directive(text: &str) -> bool {
    let bytes = text.as_bytes();
    let mut mark = 0;
    for byte in bytes {
        if ends_directive(mark, *byte) {
            return true;
        }
        mark = next_mark(mark, *byte);
    }
    false
}

/// Returns whether a piece is text with a directive or a variable.
fn holds_directive(piece: &Piece<'_>) -> bool {
    match piece {
        Piece::Lit(text) => has_directive(text),
        Piece::NextArgument(_) => false,
    }
}

/// Returns whether one of these pieces is text with a directive or a variable.
#[inline]
pub(crate) fn hold_directives(pieces: &[Piece<'_>]) -> bool {
    for piece in pieces {
        if holds_directive(piece) {
            return true;
        }
    }
    false
}
