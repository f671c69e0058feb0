//! The calls of the crate, and the fields that a caller may write.
use dephungo::*;

fn read(input: &str) -> (Vec<Option<Piece<'_>>>, Vec<ParseError>) {
    let mut parser = Parser::new(input, None, None, false, ParseMode::Format);
    let mut pieces = Vec::new();
    while parser.peek().is_some() {
        pieces.push(parser.next());
    }
    assert_eq!(parser.next(), None);
    (pieces, parser.errors)
}

fn argument<'a>(piece: &'a Option<Piece<'_>>) -> &'a Argument<'a> {
    match piece {
        Some(Piece::NextArgument(argument)) => argument,
        other => panic!("no argument: {other:?}"),
    }
}

fn literal<'a>(input: &'a str, snippet: &str) -> Parser<'a> {
    Parser::new(
        input,
        None,
        Some(snippet.to_string()),
        false,
        ParseMode::Format,
    )
}

#[test]
fn texts_and_doubled_braces() {
    let (pieces, errors) = read("é{{€}}");
    assert_eq!(
        pieces,
        [
            Some(Piece::Lit("é")),
            Some(Piece::Lit("{€")),
            Some(Piece::Lit("}"))
        ]
    );
    assert!(errors.is_empty());
}

#[test]
fn each_field_of_a_specification() {
    let (pieces, errors) = read("{n:€>+#0w$.*x?}{:-<1$.p$}{0:^X}{:abc}");
    let first = &argument(&pieces[0]).format;
    assert_eq!(
        (first.fill, first.fill_span.clone(), first.align),
        (Some('€'), Some(4..7), AlignRight)
    );
    assert_eq!(
        (first.sign, first.alternate, first.zero_pad),
        (Some(Sign::Plus), true, true)
    );
    assert_eq!(
        (&first.width, first.width_span.clone()),
        (&CountIsName("w", 11..12), Some(11..13))
    );
    assert_eq!(
        (&first.precision, first.precision_span.clone()),
        (&CountIsStar(0), Some(13..15))
    );
    assert_eq!(
        (first.ty, first.debug_hex, first.ty_span.clone()),
        ("?", Some(DebugHex::Lower), None)
    );
    let second = argument(&pieces[1]);
    assert_eq!(
        (&second.position, second.position.index()),
        (&ArgumentImplicitlyIs(1), Some(1))
    );
    assert_eq!(
        (second.format.fill, second.format.align),
        (Some('-'), AlignLeft)
    );
    assert_eq!(
        (&second.format.width, &second.format.precision),
        (&CountIsParam(1), &CountIsName("p", 25..26))
    );
    assert_eq!(
        (
            argument(&pieces[2]).format.align,
            argument(&pieces[2]).format.ty
        ),
        (AlignCenter, "X")
    );
    assert_eq!(
        (
            argument(&pieces[3]).format.ty,
            argument(&pieces[3]).format.ty_span.clone()
        ),
        ("abc", Some(36..39))
    );
    assert!(errors.is_empty());
}

#[test]
fn a_call_goes_on_after_none() {
    let mut parser = Parser::new("}a}", None, None, false, ParseMode::Format);
    assert_eq!(parser.next(), None);
    assert_eq!(
        (parser.errors.len(), parser.errors[0].span.clone()),
        (1, 1..2)
    );
    assert_eq!(parser.errors[0].description, "unmatched `}` found");
    assert_eq!(parser.next(), Some(Piece::Lit("a")));
    assert_eq!(parser.next(), None);
    assert_eq!(parser.errors.len(), 2);
    assert_eq!(
        (parser.next(), parser.next(), parser.errors.len()),
        (None, None, 2)
    );
}

#[test]
fn errors_come_to_the_front_of_what_is_left_and_to_its_back() {
    let mut parser = Parser::new("{_}{a?}{r#b}", None, None, false, ParseMode::Format);
    parser.next();
    parser.errors[0].label = "kept".to_string();
    parser.next();
    let seen: Vec<&str> = parser
        .errors
        .iter()
        .map(|error| error.label.as_str())
        .collect();
    assert_eq!(
        seen,
        [
            "expected `:` before `?` to format with `Debug`",
            "kept",
            "expected `}`"
        ]
    );
    assert!(
        matches!(&parser.errors[0].suggestion, Suggestion::AddMissingColon(at) if *at == (6..7))
    );
    parser.errors.clear();
    assert_eq!(parser.next(), None);
    parser.next();
    assert_eq!(parser.errors.len(), 2);
    assert!(
        matches!(&parser.errors[0].suggestion, Suggestion::RemoveRawIdent(at) if *at == (9..11))
    );
    assert_eq!(parser.errors[1].label, "unmatched `}`");
}

#[test]
fn each_suggestion_and_each_second_label() {
    let (_, errors) = read("{a.b}{:?#}{a=}{:}>");
    let all: Vec<u8> = errors
        .iter()
        .map(|error| match &error.suggestion {
            Suggestion::UsePositional => 1,
            Suggestion::ReorderFormatParameter(at, text) if *at == (8..10) && text == "#?" => 2,
            Suggestion::UseRustDebugPrintingMacro => 3,
            Suggestion::None => 0,
            _ => 9,
        })
        .collect();
    assert_eq!(all, [3, 2, 1, 0, 0, 0, 0, 0, 0]);
    assert_eq!(
        errors[0].secondary_label,
        Some(("because of this opening brace".to_string(), 11..12))
    );
    assert!(errors[2].note.is_some() && errors[2].secondary_label.is_none());
}

#[test]
fn the_next_number_may_be_set() {
    let mut parser = Parser::new("{}{:.*}{}", None, None, false, ParseMode::Format);
    parser.next();
    assert_eq!(parser.curarg, 1);
    parser.curarg = 10;
    let piece = parser.next();
    assert_eq!(argument(&piece).format.precision, CountIsStar(10));
    assert_eq!(argument(&piece).position, ArgumentImplicitlyIs(11));
    assert_eq!(parser.curarg, 12);
    assert_eq!(argument(&parser.next()).position, ArgumentImplicitlyIs(12));
}

#[test]
fn peeks() {
    let mut parser = Parser::new("€{}a", Some(2), None, false, ParseMode::Format);
    assert_eq!(parser.peek(), Some((4..7, 0, '€')));
    assert_eq!(parser.peek_ahead(), Some((7..8, 3, '{')));
    parser.next();
    parser.next();
    assert_eq!(
        (parser.peek(), parser.peek_ahead()),
        (Some((9..10, 5, 'a')), None)
    );
    parser.next();
    assert_eq!((parser.peek(), parser.peek_ahead()), (None, None));
}

#[test]
fn the_first_peek_may_come_late() {
    let mut parser = literal("a\n{b}c", r#""a\n{\x62}c""#);
    parser.next();
    parser.next();
    assert_eq!(parser.peek(), Some((10..11, 5, 'c')));
    assert_eq!(parser.peek_ahead(), None);
    parser.next();
    assert_eq!((parser.peek(), parser.line_spans.len()), (None, 1));
    parser.next();
    assert_eq!((parser.peek(), parser.line_spans.len()), (None, 2));
}

#[test]
fn a_parser_may_be_shared_between_threads() {
    fn is_shared<T: Send + Sync>(_: &T) {}
    is_shared(&Parser::new("{}", None, None, false, ParseMode::Format));
}

#[test]
fn places_and_lines_of_a_source_literal() {
    let mut parser = literal("a{n:w$}\n  b", r#""\x61{n:w$}\n  b""#);
    assert!(parser.is_source_literal);
    assert_eq!(parser.peek(), Some((1..5, 0, 'a')));
    let pieces: Vec<Piece> = parser.by_ref().collect();
    assert_eq!(pieces.len(), 3);
    let Piece::NextArgument(argument) = &pieces[1] else {
        panic!("no argument")
    };
    assert_eq!(
        (argument.position_span.clone(), &argument.format.width),
        (6..7, &CountIsName("w", 8..9))
    );
    assert_eq!(
        (parser.arg_places.len(), &parser.arg_places[0]),
        (1, &(5..11))
    );
    assert_eq!(parser.line_spans, [1..11, 15..16]);
    // the last line is put there once, unless it is no longer the last one
    parser.next();
    assert_eq!(parser.line_spans, [1..11, 15..16]);
    parser.line_spans.push(1..11);
    parser.next();
    assert_eq!(parser.line_spans, [1..11, 15..16, 1..11, 15..16]);
    parser.line_spans.clear();
    parser.next();
    assert_eq!(
        (parser.line_spans.len(), &parser.line_spans[0]),
        (1, &(15..16))
    );
}

/// A unit of a literal that the text has not stands in front of one that it has.
#[test]
fn units_that_the_text_has_not() {
    for unit in ["\\x41", "\\u{41}", "\\n", "\\\\", "A", "\\q"] {
        for snippet in [format!("\"a{unit}b{{x}}\""), format!("\"ab{{x{unit}}}\"")] {
            assert!(!literal("ab{x}", &snippet).is_source_literal, "{snippet}");
        }
    }
    assert!(literal("ab{x}", "\"a\\\n \\\n b{x\\\n}\"").is_source_literal);
}

#[test]
fn a_snippet_that_is_something_else() {
    let mut parser = literal("a\n{}", "\"b\\n{}\"");
    assert!(!parser.is_source_literal);
    assert_eq!(parser.by_ref().count(), 2);
    assert!(parser.arg_places.is_empty() && parser.line_spans.is_empty());
}

#[test]
fn a_caller_that_wants_no_places() {
    let mut parser = literal("{}\n{}", "\"{}\\n{}\"");
    parser.is_source_literal = false;
    assert_eq!(parser.by_ref().count(), 3);
    assert!(parser.arg_places.is_empty() && parser.line_spans.is_empty());
}

#[test]
fn the_modes() {
    let types = |mode| {
        let mut parser = Parser::new("{a: b}", None, None, false, mode);
        let piece = parser.next();
        (argument(&piece).format.ty.to_string(), parser.errors.len())
    };
    assert_eq!(types(ParseMode::Diagnostic), (" b".to_string(), 0));
    assert_eq!(types(ParseMode::DiagnosticNamed), (" b".to_string(), 1));
    assert_eq!(types(ParseMode::InlineAsm), (String::new(), 1));
}

#[test]
fn more_than_the_first_buffers_hold() {
    let input = "{a:1}\n{_".repeat(500);
    let (pieces, errors) = read(&input);
    assert_eq!((pieces.len(), errors.len()), (1500, 1000));
    assert_eq!(errors[0].description, "invalid argument name `_`");
    let quoted = format!("{:?}", input);
    let mut parser = literal(&input, &quoted);
    while parser.peek().is_some() {
        parser.next();
    }
    parser.next();
    assert_eq!(
        (parser.arg_places.len(), parser.line_spans.len()),
        (500, 501)
    );
}

#[test]
fn parsers_beside_each_other_and_in_threads() {
    fn goes_anywhere<T: Send + Sync>() {}
    goes_anywhere::<Parser<'_>>();
    let mut first = Parser::new("a{x}", None, None, false, ParseMode::Format);
    let mut second = Parser::new("b{y}", None, None, false, ParseMode::Format);
    assert_eq!(
        (first.next(), second.next()),
        (Some(Piece::Lit("a")), Some(Piece::Lit("b")))
    );
    let handle = std::thread::spawn(move || {
        (
            second.count(),
            Parser::new("{}", None, None, false, ParseMode::Format).count(),
        )
    });
    assert_eq!(handle.join().unwrap(), (1, 1));
    assert!(argument(&first.next()).is_identifier());
}

#[test]
fn fields_can_be_moved_out() {
    let mut parser = Parser::new("}", None, None, false, ParseMode::Format);
    parser.next();
    let (errors, places) = (parser.errors, parser.arg_places);
    assert_eq!((errors.len(), places.len()), (1, 0));
}

#[test]
#[cfg(target_pointer_width = "64")]
fn a_piece_takes_two_words() {
    assert_eq!(std::mem::size_of::<Piece<'_>>(), 16);
}
