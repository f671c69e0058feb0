//! What can be seen of a parser, as something to compare.

/// A module for a crate with the types of the original: a parser of a case, an error with all its
/// fields, the places of a piece's texts, and what can be asked of a piece.
#[macro_export]
macro_rules! seen_by {
    ($name:ident, $of:ident) => {
        #[allow(dead_code)]
        mod $name {
            use crate::cases::Case;
            use std::ops::Range;
            use $of::*;

            fn mode(case: &Case) -> ParseMode {
                match case.mode {
                    0 => ParseMode::Format,
                    1 => ParseMode::InlineAsm,
                    2 => ParseMode::Diagnostic,
                    #[cfg(applied)]
                    3 => ParseMode::DiagnosticNamed,
                    other => panic!("the mode {other}"),
                }
            }

            pub fn parser(case: &Case) -> Parser<'_> {
                let snippet = case.snippet.clone();
                Parser::new(&case.input, case.style, snippet, case.newline, mode(case))
            }

            type Mend<'a> = (u8, Option<&'a Range<usize>>, Option<&'a String>);
            type Second = Option<(String, Range<usize>)>;

            pub fn error(
                e: &ParseError,
            ) -> (&String, &Option<String>, &String, &Range<usize>, &Second, Mend<'_>) {
                let mend = match &e.suggestion {
                    Suggestion::None => (0, None, None),
                    Suggestion::UsePositional => (1, None, None),
                    Suggestion::RemoveRawIdent(at) => (2, Some(at), None),
                    Suggestion::ReorderFormatParameter(at, text) => (3, Some(at), Some(text)),
                    Suggestion::AddMissingColon(at) => (4, Some(at), None),
                    Suggestion::UseRustDebugPrintingMacro => (5, None, None),
                };
                (&e.description, &e.note, &e.label, &e.span, &e.secondary_label, mend)
            }

            /// The bytes of the input in which the texts of a piece stand; None for one that stands
            /// elsewhere or is empty.
            pub fn places(input: &str, piece: &Option<Piece<'_>>) -> Vec<Option<usize>> {
                let place = |text: &str| {
                    let at = (text.as_ptr() as usize).wrapping_sub(input.as_ptr() as usize);
                    (!text.is_empty() && at < input.len()).then_some(at)
                };
                let count = |count: &Count<'_>| match count {
                    CountIsName(name, _) => place(name),
                    _ => None,
                };
                match piece {
                    None => vec![],
                    Some(Piece::Lit(text)) => vec![place(text)],
                    Some(Piece::NextArgument(a)) => {
                        let name = match a.position {
                            ArgumentNamed(name) => place(name),
                            _ => None,
                        };
                        let format = &a.format;
                        let counts = [count(&format.width), count(&format.precision)];
                        vec![name, counts[0], counts[1], place(format.ty)]
                    }
                }
            }

            /// What can be asked of a piece: whether its argument is an identifier, its number,
            /// whether it asks for nothing, and whether its clone is equal to it.
            pub fn answers(piece: &Option<Piece<'_>>) -> (bool, Option<usize>, bool, bool) {
                let same = piece.clone() == *piece;
                let Some(Piece::NextArgument(a)) = piece else {
                    return (false, None, false, same);
                };
                let asks_nothing = a.format == FormatSpec::default();
                (a.is_identifier(), a.position.index(), asks_nothing, same)
            }

            /// What is made of a case besides its pieces: the tokens, the edits, the literal with
            /// them, and the drawings, with those of the same errors at other places.
            #[cfg(itself)]
            pub fn made(case: &Case, places: [usize; 4]) -> String {
                use $of::{faults::*, tokens::tokens};
                let Case { input, style, snippet, newline, .. } = case;
                let (source, mode) = (snippet.as_ref().unwrap_or(input), mode(case));
                let mut errors = errors_of(input, *style, snippet.clone(), *newline, mode);
                let mut made = format!("{:?}", edits(mode, &errors));
                made += &format!("{:?}", fix(input, *style, source, *newline, mode));
                made += &format!("{:?}", tokens(input, *style, snippet.clone(), *newline, mode));
                let picture = Picture {
                    path: "a.rs",
                    source,
                    line_start: 9,
                    literal_start: 0,
                    width: 140,
                    colours: false,
                };
                errors.iter().for_each(|error| made += &draw(mode, &picture, error));
                for error in &mut errors {
                    error.span = places[0]..places[1];
                    error.secondary_label = Some(("s".to_string(), places[2]..places[3]));
                    made += &draw(mode, &picture, error);
                }
                made
            }
        }
    };
}
