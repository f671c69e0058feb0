//! The characters that may begin an identifier (`XID_Start`) and those that may follow in one
//! (`XID_Continue`), of Unicode Standard Annex 31.
use super::xid::{CONTINUE, START};

/// Returns whether a character is in one of the ranges of a table. Each range is from a bound with
/// an even index to the bound after it, which is excluded.
#[cold]
fn is_within(bounds: &[u32], c: char) -> bool {
    bounds.partition_point(|&bound| bound <= u32::from(c)) % 2 == 1
}

/// Returns whether a byte is an ASCII letter. Most characters of identifiers are, so it is the first
/// test for them.
#[inline(always)]
fn is_letter(byte: u8) -> bool {
    (byte | 0x20).is_ascii_lowercase()
}

/// Returns whether a character is in `XID_Start`.
#[inline]
pub fn is_xid_start(c: char) -> bool {
    if c.is_ascii() {
        return is_letter(c as u8);
    }
    is_within(&START, c)
}

/// Returns whether a character is in `XID_Continue`.
#[inline]
pub fn is_xid_continue(c: char) -> bool {
    if c.is_ascii() {
        return is_letter(c as u8) || c.is_ascii_digit() || c == '_';
    }
    is_within(&CONTINUE, c)
}

#[cfg(test)]
mod tests {
    use super::*;

    /// Returns for each character whether it is in the class: from the ranges of a table, one after
    /// the other, and from `in_ascii` for ASCII.
    fn class(bounds: &[u32], in_ascii: fn(char) -> bool) -> Vec<bool> {
        let mut is: Vec<bool> = ('\0'..='\u{7f}').map(in_ascii).collect();
        for (at, &bound) in bounds.iter().enumerate() {
            is.resize(bound as usize, at % 2 == 1);
        }
        is.resize(0x11_0000, false);
        is
    }

    #[test]
    fn each_character_is_as_the_ranges_say() {
        let starts = class(&START, |c| c.is_ascii_alphabetic());
        let continues = class(&CONTINUE, |c| c.is_ascii_alphanumeric() || c == '_');
        for c in '\0'..=char::MAX {
            let wanted = (starts[c as usize], continues[c as usize]);
            assert_eq!((is_xid_start(c), is_xid_continue(c)), wanted, "{c:?}");
        }
    }
}
