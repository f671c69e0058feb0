//! Literals as they stand in a program, beside the calls with five arguments.
#![cfg(feature = "lint")]
use dephungo::faults::{errors_of, faults_of, fix};
use dephungo::literal::{is_source_literal, Literal};
use dephungo::tokens::tokens;
use dephungo::ParseMode::{Format, InlineAsm};
use dephungo::{report::check, ParseMode, Parser, Piece};

/// Compares a literal of this text and style with what the calls say that take these.
fn same(snippet: &str, text: &str, style: Option<usize>, newline: bool, mode: ParseMode) {
    let literal = Literal::new(snippet, mode).unwrap();
    let literal = if newline {
        literal.with_newline()
    } else {
        literal
    };
    let wanted = Literal {
        text: text.to_string(),
        style,
        snippet,
        appended_newline: newline,
        mode,
    };
    assert_eq!(literal, wanted);
    let given = || Some(snippet.to_string());

    let mut parser = literal.parser();
    let pieces: Vec<Piece> = Parser::new(text, style, given(), newline, mode).collect();
    assert_eq!(parser.by_ref().collect::<Vec<_>>(), pieces);
    assert!(parser.is_source_literal);
    assert_eq!(literal.pieces(), pieces);
    assert_eq!(literal.check(1, &["a"]), check(&pieces, 1, &["a"]));
    assert_eq!(
        literal.tokens(),
        tokens(text, style, given(), newline, mode)
    );
    assert_eq!(
        literal.faults(),
        faults_of(text, style, given(), newline, mode)
    );
    let spans = |errors: Vec<dephungo::ParseError>| -> Vec<_> {
        errors
            .into_iter()
            .map(|it| (it.span, it.description))
            .collect()
    };
    let errors = errors_of(text, style, given(), newline, mode);
    assert_eq!(spans(literal.errors()), spans(errors));
    let fixed = fix(text, style, snippet, newline, mode).map(|it| (it.snippet, it.text));
    assert_eq!(literal.fix().map(|it| (it.snippet, it.text)), fixed);
}

#[test]
fn literals_of_each_style() {
    same(r#""""#, "", None, false, Format);
    same(r#""{\x61?} {}\u{7d}\n""#, "{a?} {}}\n", None, false, Format);
    same("\"a{\\\n   b}\"", "a{b}\n", None, true, Format);
    same(r#"r"\x61{a?}""#, r"\x61{a?}", Some(0), false, Format);
    same(r##"r#""{r#a}""#"##, "\"{r#a}\"\n", Some(1), true, Format);
    same(r###"r##""#{1"##"###, r##""#{1"##, Some(2), false, Format);
    same(
        r#""mov {0:e}, {}""#,
        "mov {0:e}, {}",
        None,
        false,
        InlineAsm,
    );
}

/// Prefixes, suffixes, quotes that do not close, wrong escapes, and what is no literal.
#[test]
fn no_literals() {
    let texts = [
        "",
        "a",
        "\"",
        "\"a",
        "a\"",
        "r\"a",
        "r#\"a\"",
        "r\"a\"#",
        "b\"a\"",
        "c\"a\"",
        "br\"a\"",
        "\"a\"u8",
        " \"a\"",
        "\"a\" ",
        "\"\\q\"",
        "\"\\x80\"",
        "\"\\u{d800}\"",
        "\"a\"b\"",
        "'a'",
        "\"a\r\n\"",
        "r\"a\r\n\"",
        "r\"a\"b\"",
        "r#\"a\"#\"#",
        "\"a\" + \"b\"",
        "concat!(\"a\")",
    ];
    for text in texts {
        assert_eq!(Literal::new(text, Format), None, "{text}");
    }
}

/// A text that its literal has as it stands is not the literal's if it begins with what a literal
/// cannot have as it stands, however long it is.
#[test]
fn texts_as_they_stand() {
    let tail = "0123456789 and some more letters";
    for front in ["\\n", "\"", "\r", "\\"] {
        let text = [front, tail].concat();
        let snippet = format!("\"{text}\"");
        assert!(!is_source_literal(&text, None, &snippet, false), "{text}");
    }
    let escaped = format!("\"\\\\n{tail}\"");
    let text = format!("\\n{tail}");
    assert!(is_source_literal(&text, None, &escaped, false));
}

/// A newline is appended once.
#[test]
fn newlines() {
    let literal = Literal::new("\"{\"", Format).unwrap().with_newline();
    assert_eq!(literal.clone().with_newline(), literal);
    assert_eq!(literal.text, "{\n");
}
