//! The tokens of a format string: what an editor shows in colours.
use crate::proved::format_tokens::tokens as tokens_in;
use crate::shim::alloc::answer;
use crate::ParseMode;
use alloc::string::String;
use alloc::vec::Vec;

pub use crate::proved::format_tokens::{Kind, Token};

/// Returns the tokens of an input, faulty or not, with their byte ranges in its source literal, or
/// in the input if there is none. Nothing is left out but an appended newline.
///
/// The arguments are those of [`Parser::new`](crate::Parser::new). If the snippet is the source
/// literal of the input, the byte ranges are those of the snippet, and the first and the last token
/// are what is around the text. Otherwise the byte ranges are those of the input, from 0 on. The
/// kinds and the characters of the tokens do not depend on `style` and `snippet`, but for escapes:
/// each escape of an ordinary source literal in text, and each continued line, is a token of its
/// own, and cuts the token that it is in. An allocation failure aborts, as elsewhere in Rust.
///
/// ```
/// use dephungo::tokens::{tokens, Kind};
/// use dephungo::ParseMode;
///
/// let found = tokens("a{:?}", None, Some(r#""\x61{:?}""#.to_string()), false, ParseMode::Format);
/// let starts: Vec<_> = found.iter().map(|token| (token.kind, token.span.start)).collect();
/// let wanted = [
///     (Kind::Quote, 0),
///     (Kind::EscapeSequence, 1),
///     (Kind::OpenBrace, 5),
///     (Kind::Colon, 6),
///     (Kind::Type, 7),
///     (Kind::CloseBrace, 8),
///     (Kind::Quote, 9),
/// ];
/// assert_eq!(starts, wanted);
/// ```
#[must_use]
pub fn tokens(
    input: &str,
    style: Option<usize>,
    snippet: Option<String>,
    appended_newline: bool,
    mode: ParseMode,
) -> Vec<Token> {
    answer(tokens_in(input, style, snippet, appended_newline, mode))
}
