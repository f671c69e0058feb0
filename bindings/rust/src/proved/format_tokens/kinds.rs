//! Tokens and their kinds.

// Extracted from crates/format_tokens/src/kinds.rt by tools/extract: not to be edited.
// That source has the contracts, and is proved. That this text means the same is only tested.

use core::ops::Range;

/// The kind of a token. The names are those of rust-analyzer's lexer of format strings where it has
/// one.
#[non_exhaustive]
#[derive(Clone, Copy, Debug, Eq, PartialEq, Hash)]
pub enum Kind {
    /// Literal text without braces.
    Text,
    /// A doubled brace, `{{` or `}}`.
    EscapedBrace,
    /// The `{` of a placeholder.
    OpenBrace,
    /// The `}` that closes a placeholder.
    CloseBrace,
    /// The digits of a position, a width or a precision.
    Integer,
    /// The name of an argument.
    Identifier,
    /// The `r#` of a raw identifier.
    RawPrefix,
    /// White space in a placeholder.
    Whitespace,
    /// The `:` before a specification.
    Colon,
    /// The fill character.
    Fill,
    /// The alignment: `<`, `^` or `>`.
    Alignment,
    /// The sign flag: `+` or `-`.
    Sign,
    /// The flag `#`.
    NumberSign,
    /// The flag `0`.
    Zero,
    /// The `$` after an argument of a width or a precision.
    DollarSign,
    /// The `.` before a precision.
    Dot,
    /// The `*` of a precision.
    Asterisk,
    /// The type, for example `x?`, at the end of a format specification.
    Type,
    /// The modifier of an assembly template.
    Modifier,
    /// The text after the colon in a diagnostic.
    DiagnosticText,
    /// What a fault is about:
    ///
    /// - a `}` that closes nothing, a `{` that nothing closes, and between two braces text and
    ///   doubled braces, since a closing brace is missing before them;
    /// - the characters that the parser skips in place of a closing brace;
    /// - a lone `_` in place of a name, a type or a modifier;
    /// - a number above 65535;
    /// - in `DiagnosticNamed` a number, text after a colon, and the braces around no argument.
    ///
    /// The prefix `r#` is a fault of its own kind, `RawPrefix`.
    Unexpected,
    /// The opening or the closing of a source literal, around its text.
    Quote,
    /// An escape of an ordinary source literal in text, such as `\n`, or a continued line anywhere.
    EscapeSequence,
}

/// A token without its place.
#[derive(Clone, Copy, Debug, Eq, PartialEq)]
pub struct Label {
    /// The kind.
    pub kind: Kind,
    /// The number of characters.
    pub width: usize,
}

/// A token: a kind and a byte range of the source.
#[derive(Clone, Debug, Eq, PartialEq, Hash)]
pub struct Token {
    /// The kind.
    pub kind: Kind,
    /// The byte range from the start of the token's first character to the start of the next
    /// character, or to the end of the text.
    pub span: Range<usize>,
}
