//! Bytes that are ASCII characters of a class, by a table.

// Extracted from crates/rust_tokens/src/bytes.rt by tools/extract: not to be edited.
// That source has the contracts, and is proved. That this text means the same is only tested.

/// White space.
const SPACE: u8 = b'1';

/// Punctuation but `/`.
const SIGN: u8 = b'2';

/// Digits. From this sort on a byte continues a word.
const DIGIT: u8 = b'3';

/// The letters that a prefix can begin with. From this sort on a byte begins a word.
const PREFIX: u8 = b'4';

/// Other letters and `_`.
const START: u8 = b'5';

/// The sort of each byte, or 0 if it is of none of these.
static SORTS: [u8; 256] = *b"\
    00000000011111000000000000000000\
    12022220222222203333333333222222\
    25555555555555555555555555520225\
    05445555555555555545555555522220\
    00000000000000000000000000000000\
    00000000000000000000000000000000\
    00000000000000000000000000000000\
    00000000000000000000000000000000";

/// Returns whether the byte is white space.
#[inline(always)]
pub fn is_space_byte(byte: u8) -> bool {
    SORTS[byte as usize] == SPACE
}

/// Returns whether the byte is a letter, a digit or `_`, which continue a word.
#[inline(always)]
pub fn is_word_byte(byte: u8) -> bool {
    SORTS[byte as usize] >= DIGIT
}

/// Returns whether the byte is a letter or `_`, which begin a word.
#[inline(always)]
pub fn is_start_byte(byte: u8) -> bool {
    SORTS[byte as usize] >= PREFIX
}

/// Returns whether the byte is punctuation that is a token by itself, whatever follows.
#[inline(always)]
pub fn is_sign(byte: u8) -> bool {
    SORTS[byte as usize] == SIGN
}

/// Returns whether the byte begins a word and no literal: a letter but `b`, `c` and `r`, or `_`.
#[inline(always)]
pub fn is_plain_start(byte: u8) -> bool {
    SORTS[byte as usize] == START
}

/// Returns whether the byte is a letter with which a prefix can begin: `b`, `c` or `r`.
#[inline(always)]
pub fn is_prefix_letter(byte: u8) -> bool {
    SORTS[byte as usize] == PREFIX
}
