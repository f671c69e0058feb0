//! Fixes and drawings: the fixes of literals, and the drawings of spans that no parser gives, or of
//! which there is no drawing of rustc. The others are compared by bindings/compare.
#![cfg(feature = "lint")]
use dephungo::faults::{draw, edits, error_of, errors_of, faults_of, fix, Picture};
use dephungo::ParseMode::{self, *};
use dephungo::{ParseError, Suggestion};
use std::ops::Range;

/// The literal, with the edits of its faults, and its text.
fn fixed(
    mode: ParseMode,
    input: &str,
    style: Option<usize>,
    literal: &str,
) -> Option<(String, String)> {
    let newline = input.ends_with('\n');
    fix(input, style, literal, newline, mode).map(|fixed| (fixed.snippet, fixed.text))
}

#[test]
fn texts() {
    for (mode, text, wanted) in [
        (Format, "{r#type}", "{type}"),
        (Format, "{r#a:>5}", "{a:>5}"),
        (Format, "{?}", "{:?}"),
        (Format, "{a ?}", "{a :?}"),
        (Format, "{:?#}", "{:#?}"),
        (Format, "{:?x}", "{:x?}"),
        (Format, "{a:>?X}", "{a:>X?}"),
        (Format, "한{r#a}한", "한{a}한"),
        (Format, "{r#a:?x} {b?} {:?#}", "{a:x?} {b:?} {:#?}"),
        (Format, "} {r#a} } {b?}", "} {a} } {b:?}"),
        // a fault that the edit leaves
        (Format, "{a.:?#}", "{a.:#?}"),
        // a suggestion that another one makes possible
        (Format, "{r#r#a}", "{a}"),
        (Format, "{:?#x}", "{:#x?}"),
        (DiagnosticNamed, "{r#a} {a?}", "{a} {a?}"),
    ] {
        let quoted = |text: &str| format!("\"{text}\"");
        let found = fixed(mode, text, None, &quoted(text));
        assert_eq!(found, Some((quoted(wanted), wanted.to_string())));
    }
}

#[test]
fn literals() {
    for (input, style, literal, wanted, text) in [
        ("{r#a}", Some(0), "r\"{r#a}\"", "r\"{a}\"", "{a}"),
        ("{a?}", Some(1), "r#\"{a?}\"#", "r#\"{a:?}\"#", "{a:?}"),
        ("{r#a}", None, "\"{\\x72\\\n  #a}\"", "\"{a}\"", "{a}"),
        (
            "\t{a?}",
            None,
            "\"\\t{a\\u{3f}}\"",
            "\"\\t{a:\\u{3f}}\"",
            "\t{a:?}",
        ),
        (
            "\u{a0}{?}",
            None,
            "\"\\\n\u{a0}{?}\"",
            "\"\\\n\u{a0}{:?}\"",
            "\u{a0}{:?}",
        ),
        ("{r#a}\n", None, "\"{r#a}\"", "\"{a}\"", "{a}\n"),
        ("{a?}\n", Some(0), "r\"{a?}\"", "r\"{a:?}\"", "{a:?}\n"),
    ] {
        let found = fixed(Format, input, style, literal);
        assert_eq!(found, Some((wanted.to_string(), text.to_string())));
    }
}

#[test]
fn what_is_not_offered_in_a_mode_stays() {
    for (mode, text) in [(InlineAsm, "{a?} {r#a}"), (DiagnosticNamed, "{a?} {a:?#}")] {
        assert_eq!(fixed(mode, text, None, &format!("\"{text}\"")), None);
    }
}

/// All texts of up to so many parts.
fn texts_of(parts: usize) -> Vec<String> {
    let mut all = vec![String::new()];
    let mut last = all.clone();
    for _ in 0..parts {
        last = last
            .iter()
            .flat_map(|text| PARTS.iter().map(move |part| format!("{text}{part}")))
            .collect();
        all.extend(last.iter().cloned());
    }
    all
}

/// The parts of texts that may have edits.
const PARTS: &[&str] = &["{", "}", "{{", "a", ":", "?", "#", "r#", ".", "0", "$", " "];

#[test]
fn a_fix_leaves_fewer_faults_and_no_new_one() {
    for text in texts_of(4) {
        for mode in [Format, InlineAsm, Diagnostic, DiagnosticNamed] {
            let fix_of = |text: &str| fixed(mode, text, None, &format!("\"{text}\""));
            let Some((_, fixed)) = fix_of(&text) else {
                continue;
            };
            let ids_of = |text: &str| -> Vec<&str> {
                let faults = faults_of(text, None, None, false, mode);
                faults.iter().map(|fault| fault.id()).collect()
            };
            let (before, after) = (ids_of(&text), ids_of(&fixed));
            assert!(mode != InlineAsm && after.len() < before.len(), "{text}");
            let mut left = before.iter();
            assert!(after.iter().all(|id| left.any(|it| it == id)), "{text}");
        }
    }
}

#[test]
fn what_is_not_fixed() {
    for (input, style, literal) in [
        ("{}", None, "\"{}\""),
        ("{_}", None, "\"{_}\""),
        ("{a=}", None, "\"{a=}\""),
        // a new fault, or as many calls that find one
        ("{a?}}", None, "\"{a?}}\""),
        ("{:05?#}", None, "\"{:05?#}\""),
        ("{:?#?}", None, "\"{:?#?}\""),
        ("{r#a.r#b}", None, "\"{r#a.r#b}\""),
        ("{r#r#a=}", None, "\"{r#r#a=}\""),
        // snippets that are not the source literal of the input
        ("{r#a}", None, "r\"{r#a}\""),
        ("{r#a}", Some(0), "\"{r#a}\""),
        ("{r#a}", None, "\"{r#b}\""),
        ("{r#a}", None, "\"{rxa}\""),
        ("{?}한", None, "\"\\\n\u{a0}{?}한\""),
    ] {
        assert_eq!(fixed(Format, input, style, literal), None);
    }
}

#[test]
fn edits_are_in_order() {
    let errors = errors_of("{r#a:?x}{b?}", None, None, false, Format);
    let found: Vec<(Range<usize>, &str)> = edits(Format, &errors)
        .iter()
        .map(|edit| (edit.span.clone(), edit.text))
        .collect();
    assert_eq!(found, [(2..4, ""), (6..8, "x?"), (11..11, ":")]);
}

/// A text with a fault of each kind, and the id of that.
#[test]
fn ids() {
    for (mode, text, id) in [
        (Format, "}", "unmatched-closing-brace"),
        (Format, "{a!}", "missing-closing-brace"),
        (Format, "{:}<", "closing-brace-as-fill"),
        (Format, "{_}", "underscore-as-name"),
        (Format, "{65536}", "integer-too-large"),
        (DiagnosticNamed, "{0}", "unnamed-argument"),
        (DiagnosticNamed, "{a:?}", "text-after-colon"),
        (Format, "{r#a}", "raw-identifier"),
        (Format, "{:?#}", "flag-after-type"),
        (Format, "{a?}", "missing-colon"),
        (Format, "{?:a}", "debug-before-colon"),
        (Format, "{a<}", "alignment-before-colon"),
        (Format, "{a,}", "numeric-grouping"),
        (Format, "{a=}", "debug-equals"),
        (Format, "{a+}", "sign-before-colon"),
        (Format, "{a.b}", "field-access"),
        (Format, "{a.0}", "tuple-index"),
    ] {
        let faults = faults_of(text, None, None, false, mode);
        assert!(faults.iter().any(|fault| fault.id() == id), "{text}");
    }
}

#[test]
fn faults_are_shown() {
    let fault = faults_of("{}}", None, None, false, Format).remove(0);
    assert_eq!(fault, faults_of("{}}", None, None, false, Format)[0]);
    assert_eq!(format!("{fault:>20}"), " unmatched `}` found");
    assert_eq!(fault.to_string(), error_of(&fault).description);
}

#[cfg(feature = "std")]
#[test]
fn faults_are_errors_of_the_standard_library() {
    let fault = faults_of("{}}", None, None, false, Format).remove(0);
    let error: Box<dyn std::error::Error + '_> = Box::new(fault);
    assert_eq!(error.to_string(), "unmatched `}` found");
}

/// The errors of faults, in the order of a parser's list, are the parser's.
#[test]
fn errors_of_faults() {
    let text = "{r#a.b} {c?} {_} } {r#d";
    let mut made: Vec<ParseError> = Vec::new();
    for fault in &faults_of(text, None, None, false, Format) {
        let at = if fault.is_front() { 0 } else { made.len() };
        made.insert(at, error_of(fault));
    }
    let parts = |error: &ParseError| (error.description.clone(), error.span.clone());
    let wanted = errors_of(text, None, None, false, Format);
    assert!(made.len() > 5 && made.iter().map(parts).eq(wanted.iter().map(parts)));
}

fn error(span: Range<usize>, second: Option<Range<usize>>, suggestion: Suggestion) -> ParseError {
    ParseError {
        description: "d".to_string(),
        note: None,
        label: "l".to_string(),
        span,
        secondary_label: second.map(|span| ("s".to_string(), span)),
        suggestion,
    }
}

#[test]
fn edits_neither_overlap_nor_touch() {
    let far = [2..4, 5..6];
    for (given, wanted) in [
        (&[4..6, 2..4, 1..3][..], &[1..3, 4..6][..]),
        (&[4..6, 2..4], &far[..1]),
        (&[5..6, 2..4], &far),
    ] {
        let suggested =
            |span: &Range<usize>| error(0..0, None, Suggestion::RemoveRawIdent(span.clone()));
        let errors: Vec<_> = given.iter().map(suggested).collect();
        let spans: Vec<_> = edits(Format, &errors)
            .iter()
            .map(|edit| edit.span.clone())
            .collect();
        assert_eq!(spans, wanted);
    }
}

/// More faults and edits than the first lists hold.
#[test]
fn many_faults() {
    for count in [9, 10, 11, 1000] {
        let (text, wanted) = ("{r#a}".repeat(count), "{a}".repeat(count));
        let errors = errors_of(&text, None, None, false, Format);
        assert_eq!(errors.len(), count);
        assert!(errors
            .windows(2)
            .all(|two| two[0].span.start == two[1].span.start + 5));
        assert_eq!(edits(Format, &errors).len(), count);
        let found = fixed(Format, &text, Some(0), &format!("r\"{text}\""));
        assert_eq!(found, Some((format!("r\"{wanted}\""), wanted)));
    }
}

#[test]
fn a_long_drawing() {
    let source = format!("f(\"{}{{a!}}\");", "日".repeat(3000));
    let errors = errors_of(
        &source[3..source.len() - 3],
        None,
        Some(source[2..source.len() - 2].to_string()),
        false,
        Format,
    );
    let picture = Picture {
        path: "a.rs",
        source: &source,
        line_start: 1,
        literal_start: 2,
        width: 100_000,
        colours: false,
    };
    let before = " ".repeat(6003);
    let wanted = format!(
        "error: invalid format string: expected `}}`, found `!`\n --> a.rs:1:3006\n  |\n1 | {source}\n  \
         | {before}- ^ expected `}}` in format string\n  | {before}|\n  | {before}because of this opening \
         brace\n  |\n  = note: if you intended to print `{{`, you can escape it using `{{{{`\n\n"
    );
    assert_eq!(draw(Format, &picture, &errors[0]), wanted);
}

#[test]
fn spans() {
    for (source, span, second, wanted) in [
        // past the end of the source, and in a character: its start
        (
            "日a",
            9..usize::MAX,
            Some(1..2),
            " --> a.rs:7:3\n  |\n7 | 日a\n  | -  ^ l in format string\n  | |\n  | s\n\n",
        ),
        // a range that ends before it begins is empty
        (
            "日a",
            Range { start: 3, end: 0 },
            Some(0..3),
            " --> a.rs:7:2\n  |\n7 | 日a\n  | --^ l in format string\n  | |\n  | s\n\n",
        ),
        (
            "a\nb",
            Range { start: 2, end: 0 },
            None,
            " --> a.rs:8:1\n  |\n8 | b\n  | ^ l in format string\n\n",
        ),
        (
            "abcdef",
            Range { start: 3, end: 1 },
            None,
            " --> a.rs:7:4\n  |\n7 | abcdef\n  |    ^ l in format string\n\n",
        ),
        // from a byte in a character, so from its start
        (
            "日ab",
            2..4,
            None,
            " --> a.rs:7:1\n  |\n7 | 日ab\n  | ^^^ l in format string\n\n",
        ),
        // of two that are as long the first one is above
        (
            "abc",
            0..2,
            Some(1..3),
            " --> a.rs:7:1\n  |\n7 | abc\n  | ^^-\n  | ||\n  | |s\n  | l in format string\n\n",
        ),
        // a label that begins first and is longer, around another one
        (
            "abcdef",
            0..5,
            Some(2..3),
            " --> a.rs:7:1\n  |\n7 | abcdef\n  | ^^-^^\n  | | |\n  | | s\n  | l in format string\n\n",
        ),
        // no space before what is not drawn
        (
            "\u{200d}",
            0..3,
            None,
            " --> a.rs:7:1\n  |\n7 |\n  | ^ l in format string\n\n",
        ),
        // up to the start of a line
        (
            "a\nb",
            0..2,
            None,
            " --> a.rs:7:1\n  |\n7 | / a\n8 | | b\n  | |_^ l in format string\n\n",
        ),
        // documentation is no comment
        (
            "a\n/// b\n\n\n\n\nc",
            0..12,
            None,
            "  --> a.rs:7:1\n   |\n 7 | / a\n 8 | | /// b\n...  |\n13 | | c\n\
             \x20  | |_^ l in format string\n\n",
        ),
    ] {
        let picture = Picture {
            path: "a.rs",
            source,
            line_start: 7,
            literal_start: 0,
            width: 140,
            colours: false,
        };
        let drawing = draw(Format, &picture, &error(span, second, Suggestion::None));
        assert_eq!(
            drawing,
            format!("error: invalid format string: d\n{wanted}")
        );
    }
}

/// Characters that a terminal obeys are drawn as others, wherever they stand.
#[test]
fn what_a_terminal_obeys() {
    let error = ParseError {
        description: "d\u{1b}[31m".to_string(),
        note: Some("n\u{202e}".to_string()),
        label: "\u{9b}l".to_string(),
        span: 8..9,
        secondary_label: Some(("\u{7f}s".to_string(), 9..10)),
        suggestion: Suggestion::ReorderFormatParameter(8..9, "\u{200f}x".to_string()),
    };
    let picture = Picture {
        path: "a\u{7}.rs",
        source: "\u{61c}\u{9b}\u{200e}\u{200d}ab",
        line_start: 7,
        literal_start: 2,
        width: 140,
        colours: false,
    };
    let wanted = "error: invalid format string: d\u{241b}[31m\n --> a\u{2407}.rs:7:5\n  |\n\
        7 | \u{fffd}\u{fffd}\u{fffd}ab\n  |    ^- \u{2421}s\n  |    |\n\
        \x20 |    \u{fffd}l in format string\n  |\n  = note: n\u{fffd}\n\
        help: did you mean `\u{fffd}x`?\n  |\n7 - \u{fffd}\u{fffd}\u{fffd}ab\n\
        7 + \u{fffd}\u{fffd}\u{fffd}\u{fffd}xb\n  |\n\n";
    assert_eq!(draw(Format, &picture, &error), wanted);
}
