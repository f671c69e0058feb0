//! The ends of literals and comments, found in the bytes of a text. The marks of an end are ASCII,
//! and no byte of any other character is.

// Extracted from crates/rust_tokens/src/ends.rt by tools/extract: not to be edited.
// That source has the contracts, and is proved. That this text means the same is only tested.

/// Returns the rest of a text, where these bytes are left of its bytes.
#[inline(always)]
fn rest_of<'a>(text: &'a str, bytes: &[u8]) -> &'a str {
    &text[text.len() - bytes.len()..]
}

/// Returns the rest after the closing quote of a string with escapes, from after its opening quote
/// on, or `None` if it has no end.
#[inline]
pub fn after_string(text: &str) -> Option<&str> {
    let mut rest = text.as_bytes();
    let mut is_escaped = false;
    while let Some((byte, more)) = rest.split_first() {
        if is_escaped {
            is_escaped = false;
        } else if *byte == b'"' {
            return Some(rest_of(text, more));
        } else {
            is_escaped = *byte == b'\\';
        }
        rest = more;
    }
    None
}

/// Returns the rest after the end of a block comment, from after its `/*` on, or `None` if it has
/// no end.
#[inline]
pub fn after_comment(text: &str) -> Option<&str> {
    let mut rest = text.as_bytes();
    let mut depth: usize = 0;
    let mut previous = 0;
    while let Some((byte, more)) = rest.split_first() {
        if previous == b'/' && *byte == b'*' {
            depth += 1;
            previous = 0;
        } else if previous == b'*' && *byte == b'/' {
            if depth == 0 {
                return Some(rest_of(text, more));
            }
            depth -= 1;
            previous = 0;
        } else {
            previous = *byte;
        }
        rest = more;
    }
    None
}

/// Returns the bytes after this many hashes, or `None` if there are not so many.
#[inline]
fn after_hashes(bytes: &[u8], hashes: usize) -> Option<&[u8]> {
    let mut rest = bytes;
    let mut countdown = hashes;
    while countdown > 0 {
        let Some((byte, more)) = rest.split_first() else {
            return None;
        };
        if *byte != b'#' {
            return None;
        }
        rest = more;
        countdown -= 1;
    }
    Some(rest)
}

/// Returns the rest after the end of a raw string with this many hashes, from after its opening
/// quote on, or `None` if it has no end.
#[inline]
pub fn after_raw(text: &str, hashes: usize) -> Option<&str> {
    let mut rest = text.as_bytes();
    while let Some((byte, more)) = rest.split_first() {
        if *byte == b'"' {
            if let Some(end) = after_hashes(more, hashes) {
                return Some(rest_of(text, end));
            }
        }
        rest = more;
    }
    None
}

/// Returns the text from its first LF on.
#[inline]
pub fn after_line(text: &str) -> &str {
    let mut rest = text.as_bytes();
    while let Some((byte, more)) = rest.split_first() {
        if *byte == b'\n' {
            return rest_of(text, rest);
        }
        rest = more;
    }
    rest_of(text, rest)
}
