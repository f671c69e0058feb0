//! The tokens of source literals, and of inputs without one.
#![cfg(feature = "lint")]
use dephungo::faults::errors_of;
use dephungo::tokens::tokens;
use dephungo::tokens::Kind::{self, *};
use dephungo::ParseMode::{self, *};

/// The tokens of the literal are those of the list, one after the other.
fn check(mode: ParseMode, input: &str, style: Option<usize>, wanted: &[(Kind, &str)]) {
    let snippet: String = wanted.iter().map(|token| token.1).collect();
    let (mut start, mut end) = (0, 0);
    for (token, (kind, text)) in tokens(input, style, Some(snippet.clone()), false, mode)
        .iter()
        .zip(wanted)
    {
        end += text.len();
        assert_eq!(
            (token.kind, &token.span),
            (*kind, &(start..end)),
            "{snippet}"
        );
        start = end;
    }
    assert_eq!(end, snippet.len());
}

#[test]
fn each_kind() {
    let wanted = [
        (Quote, "\""),
        (Text, "hi "),
        (OpenBrace, "{"),
        (RawPrefix, "r#"),
        (Identifier, "a"),
        (Whitespace, " "),
        (Colon, ":"),
        (Fill, "*"),
        (Alignment, ">"),
        (Sign, "+"),
        (NumberSign, "#"),
        (Zero, "0"),
        (Integer, "1"),
        (DollarSign, "$"),
        (Dot, "."),
        (Asterisk, "*"),
        (Type, "x?"),
        (Whitespace, " "),
        (CloseBrace, "}"),
        (EscapedBrace, "{{"),
        (Text, "b"),
        (Unexpected, "}"),
        (Quote, "\""),
    ];
    check(Format, "hi {r#a :*>+#01$.*x? }{{b}", None, &wanted);
    let wanted = [
        (Quote, "r\""),
        (OpenBrace, "{"),
        (Integer, "1"),
        (Colon, ":"),
        (Identifier, "w"),
        (DollarSign, "$"),
        (Dot, "."),
        (Integer, "2"),
        (Type, "e"),
        (CloseBrace, "}"),
        (Quote, "\""),
    ];
    check(Format, "{1:w$.2e}", Some(0), &wanted);
    let wanted = [
        (Quote, "\""),
        (OpenBrace, "{"),
        (Integer, "0"),
        (Colon, ":"),
        (Modifier, "e"),
        (CloseBrace, "}"),
        (Quote, "\""),
    ];
    check(InlineAsm, "{0:e}", None, &wanted);
    let wanted = [
        (Quote, "\""),
        (OpenBrace, "{"),
        (Identifier, "T"),
        (Colon, ":"),
        (DiagnosticText, "a "),
        (CloseBrace, "}"),
        (Quote, "\""),
    ];
    check(Diagnostic, "{T:a }", None, &wanted);
}

#[test]
fn what_recovery_takes() {
    let wanted = [
        (Quote, "\""),
        (OpenBrace, "{"),
        (Identifier, "a"),
        (Unexpected, "?"),
        (CloseBrace, "}"),
        (Quote, "\""),
    ];
    check(Format, "{a?}", None, &wanted);
    let wanted = [
        (Quote, "r#\""),
        (OpenBrace, "{"),
        (Identifier, "a"),
        (Unexpected, ".b"),
        (CloseBrace, "}"),
        (Quote, "\"#"),
    ];
    check(Format, "{a.b}", Some(1), &wanted);
}

#[test]
fn escapes_and_continued_lines() {
    let wanted = [
        (Quote, "\""),
        (EscapeSequence, "\\\n"),
        (OpenBrace, "\\x7b"),
        (Identifier, "a"),
        (EscapeSequence, "\\\n "),
        (CloseBrace, "}"),
        (Quote, "\""),
    ];
    check(Format, "{a}", None, &wanted);
    let wanted = [
        (Quote, "\""),
        (Text, "a"),
        (EscapeSequence, "\\t"),
        (EscapeSequence, "\\u{e9}"),
        (EscapeSequence, "\\\n "),
        (EscapeSequence, "\\\n"),
        (OpenBrace, "\\x7b"),
        (CloseBrace, "}"),
        (EscapedBrace, "}\\x7d"),
        (Text, "b"),
        (Quote, "\""),
    ];
    check(Format, "a\té{}}}b", None, &wanted);
}

#[test]
fn culprits() {
    let check = |mode, wanted: &[(Kind, &str)]| {
        let input: String = wanted.iter().map(|token| token.1).collect();
        let found = tokens(&input, None, None, false, mode);
        let found: Vec<_> = found
            .into_iter()
            .map(|token| (token.kind, &input[token.span]))
            .collect();
        assert_eq!(found, wanted);
    };
    let inside = [
        (OpenBrace, "{"),
        (Identifier, "a"),
        (Whitespace, " "),
        (Unexpected, "b"),
        (Unexpected, "{{"),
        (Unexpected, "c"),
        (CloseBrace, "}"),
    ];
    check(Format, &inside);
    let alone = [
        (Unexpected, "{"),
        (Identifier, "a"),
        (Whitespace, " "),
        (OpenBrace, "{"),
        (CloseBrace, "}"),
    ];
    check(Format, &alone);
    check(Format, &[(OpenBrace, "{"), (Unexpected, "_"), (CloseBrace, "}")]);
    check(Format, &[(OpenBrace, "{"), (Integer, "65535"), (CloseBrace, "}")]);
    check(Format, &[(OpenBrace, "{"), (Unexpected, "65536"), (CloseBrace, "}")]);
    check(DiagnosticNamed, &[(Unexpected, "{"), (Unexpected, "}")]);
}

/// Without a source literal the ranges are those of the input, and an appended newline has none.
#[test]
fn without_a_source_literal() {
    let wanted = [(Text, 0..2), (OpenBrace, 2..3), (CloseBrace, 3..4)];
    for (style, snippet) in [(None, None), (Some(2), None), (Some(2), Some("foreign!!"))] {
        let found = tokens("é{}\n", style, snippet.map(String::from), true, Format);
        let found: Vec<_> = found.into_iter().map(|it| (it.kind, it.span)).collect();
        assert_eq!(found, wanted);
    }
    assert_eq!(tokens("{", None, None, false, Format)[0].span, 0..1);
}

/// A text has a mark exactly if it has a fault, also in a literal that is cut at a continued line
/// in front of each character.
#[test]
fn faults_and_marks() {
    let parts = [
        "{", "}", "a", "_", ":", "?", "r#", "65536", "0", "$", ".", "<", ",", "#", "{}",
    ];
    let mut texts = vec![String::new()];
    for _ in 0..4 {
        let longer = |text: &String| parts.map(|part| format!("{text}{part}"));
        texts.extend(texts.iter().flat_map(longer).collect::<Vec<_>>());
        texts.sort();
        texts.dedup();
    }
    for (text, mode) in texts
        .iter()
        .flat_map(|text| [Format, InlineAsm, Diagnostic, DiagnosticNamed].map(|mode| (text, mode)))
    {
        let wanted = !errors_of(text, None, None, false, mode).is_empty();
        let continued: String = text.chars().map(|c| format!("\\\n{c}")).collect();
        for snippet in [None, Some(format!("\"{continued}\""))] {
            let found = tokens(text, None, snippet, false, mode)
                .iter()
                .any(|token| matches!(token.kind, Unexpected | RawPrefix));
            assert_eq!(found, wanted, "{text} {mode:?}");
        }
    }
}
