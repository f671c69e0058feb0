//! Tokens and their kinds.

// Extracted from crates/rust_tokens/src/kinds.rt by tools/extract: not to be edited.
// That source has the contracts, and is proved. That this text means the same is only tested.

use core::ops::Range;

/// The kind of a token. The names are those of `rustc_lexer` where it has one, and else those of
/// the Rust Reference.
#[non_exhaustive]
#[derive(Clone, Copy, Debug, Eq, PartialEq, Hash)]
pub enum Kind {
    /// White space: Unicode's `Pattern_White_Space`.
    Whitespace,
    /// A comment of one line, without its LF. A CR before that LF belongs to it.
    LineComment,
    /// `/// ..`: a line of documentation of the item after it. `////` is no documentation.
    OuterLineDoc,
    /// `//! ..`: a line of documentation of the item around it.
    InnerLineDoc,
    /// A comment in `/* */`, with the comments inside it.
    BlockComment,
    /// `/** .. */`: documentation of the item after it. `/**/` and `/***/` are no documentation.
    OuterBlockDoc,
    /// `/*! .. */`: documentation of the item around it.
    InnerBlockDoc,
    /// An identifier, a keyword or `_`.
    Ident,
    /// An identifier with `r#` before it.
    RawIdent,
    /// A lifetime or a label.
    Lifetime,
    /// A lifetime or a label with `r#` after its apostrophe.
    RawLifetime,
    /// `0b` and digits.
    BinaryInt,
    /// `0o` and digits.
    OctalInt,
    /// Decimal digits.
    DecimalInt,
    /// `0x` and digits.
    HexadecimalInt,
    /// A number with a point or an exponent.
    Float,
    /// A character literal. One that is not ended is an apostrophe alone, which begins neither a
    /// character nor a lifetime.
    Char,
    /// A byte literal. One that is not ended is `b'` alone.
    Byte,
    /// A string literal.
    Str,
    /// A byte string literal.
    ByteStr,
    /// A C string literal.
    CStr,
    /// A raw string literal.
    RawStr,
    /// A raw byte string literal.
    RawByteStr,
    /// A raw C string literal.
    RawCStr,
    /// One character of punctuation, or a delimiter.
    Punct,
    /// One character that begins no token of another kind.
    Unknown,
    /// The line `#!..` at the start of a file, without its LF: not where an attribute begins there,
    /// that is, where `[` follows after white space and comments.
    Shebang,
    /// The byte order mark at the start of a file.
    ByteOrderMark,
}

/// A token of a text.
#[derive(Clone, Debug, Eq, PartialEq, Hash)]
pub struct Token {
    /// The byte range of the text.
    pub span: Range<usize>,
    /// The byte offset where the suffix of a literal starts: the end of the token if there is none.
    pub suffix_start: usize,
    /// The kind.
    pub kind: Kind,
    /// Whether it has its end. Only comments in `/* */` and literals in quotes can lack one.
    pub is_ended: bool,
}
