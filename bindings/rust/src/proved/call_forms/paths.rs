//! The paths in front of the names of macros.

// Extracted from crates/call_forms/src/paths.rt by tools/extract: not to be edited.
// That source has the contracts, and is proved. That this text means the same is only tested.

/// Returns whether a byte of a text may stand in a path beside `::`.
pub fn is_in_path(byte: u8) -> bool {
    byte.is_ascii_alphanumeric() || byte == b'_' || byte == b'$' || byte >= 0x80
}

/// Returns whether a word shows that its path is one of log, tracing or slog, or one of the package
/// itself.
fn is_known(word: &[u8]) -> bool {
    word == b"log".as_slice()
        || word == b"tracing".as_slice()
        || word == b"slog".as_slice()
        || word == b"crate".as_slice()
        || word == b"$crate".as_slice()
        || word == b"self".as_slice()
        || word == b"super".as_slice()
}

/// Returns whether these bytes end with `::`.
fn ends_path(front: &[u8]) -> bool {
    let count = front.len();
    count >= 2 && front[count - 1] == b':' && front[count - 2] == b':'
}

/// Returns whether one of the words of the path with which these bytes end is known.
fn has_known(front: &[u8]) -> bool {
    let mut start = front.len();
    let mut end = start;
    while start > 0 {
        let byte = front[start - 1];
        if !is_in_path(byte) {
            if is_known(&front[start..end]) {
                return true;
            }
            if byte != b':' {
                return false;
            }
            end = start - 1;
        }
        start -= 1;
    }
    is_known(&front[..end])
}

/// Returns whether the path in front of an offset of a text is one of another crate than log,
/// tracing and slog. White space and comments are in no path.
pub fn is_foreign(text: &str, offset: usize) -> bool {
    let bytes = text.as_bytes();
    let front = &bytes[..offset.min(bytes.len())];
    ends_path(front) && !has_known(front)
}
