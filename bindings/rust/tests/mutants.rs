//! Rows that find mutants of the crate which no other test does. Places and words are those of rustc
//! 1.95, and so are the drawings.
#![cfg(feature = "lint")]
use dephungo::faults::{draw, errors_of, Picture};
use dephungo::literal::{is_source_literal, read_content};
use dephungo::source::{
    file_faults, file_inlines, first_break, tokens, InlineOptions, Kind, Places, Row, Rule, Table,
};
use dephungo::ParseMode::Format;

/// Calls with other arguments are changed too.
const MIXED: InlineOptions = InlineOptions {
    is_from_2021: true,
    allows_mixed: true,
};

/// The findings of a file, each with its id and the text from its start on.
fn found<'a>(text: &'a str, table: &Table<'_>) -> Vec<(&'static str, &'a str)> {
    let report = file_faults(text, table, true);
    let findings = report.findings.iter();
    findings.map(|it| (it.id, &text[it.span.start..])).collect()
}

/// An operator of one character or two, at the end of the arguments; after a cast or a `<` it is left.
#[test]
fn operators_without_operands() {
    for argument in [
        "!", "-", "&", "x +", "x |", "x >", "x ==", "x &&", "x <<", "x ||", "x +=", "x !=",
    ] {
        let text = format!("fn f() {{ print!(\"{{}} {{}}\", x, {argument}); }}");
        assert_eq!(
            found(&text, &Table::standard()),
            [("missing-expression", "); }")],
            "{argument}"
        );
    }
    for argument in ["x as u8 +", "x < y +", "|y| y +", "let y = x +"] {
        let text = format!("fn f() {{ print!(\"{{}} {{}}\", x, {argument}); }}");
        assert_eq!(found(&text, &Table::standard()), [], "{argument}");
    }
}

/// What rustc expects after a range, which ends with a path.
#[test]
fn words_after_a_range() {
    let text = "fn f() { print!(\"{} {}\", x..y z); }";
    let title = &file_faults(text, &Table::standard(), true).findings[0].title;
    let wanted = "expected one of `!`, `,`, `.`, `::`, `?`, `{`, or an operator, found `z`";
    assert_eq!(title, wanted);
}

/// Each character of ASCII that is punctuation is a token of this kind.
#[test]
fn punctuation() {
    for sign in "!#$%&()*+,-./:;<=>?@[]^{|}~".chars() {
        let text = sign.to_string();
        let found: Vec<_> = tokens(&text).iter().map(|it| it.kind).collect();
        assert_eq!(found, [Kind::Punct], "{sign}");
    }
}

/// Parameters of a trait after delimiters in the list of them.
#[test]
fn parameters_after_delimiters() {
    let head = "#[diagnostic::on_unimplemented(message = \"{A} {B} {C} {D}\")]";
    let text = format!("{head}\ntrait T<A: Fn(u8) -> [u8; 2], B, const C: usize = {{ 2 }}> {{}}\n");
    assert_eq!(
        found(&text, &Table::standard()),
        [("missing-parameter", &text[text.find("D}").unwrap()..])]
    );
}

/// A format string that a `;` follows, and a macro after a colon alone.
#[test]
fn strings_before_a_semicolon() {
    let text = "fn f() { log::info!(\"{}\"; \"a\" => 1); }";
    assert_eq!(
        found(text, &Table::with_crate_macros()),
        [("missing-argument", &text[text.find("{}").unwrap()..])]
    );
    assert_eq!(
        found(":info!(\"{\");", &Table::with_crate_macros()).len(),
        1
    );
}

/// No keyword of an edition is a variable.
#[test]
fn keywords() {
    let words = "as break const continue crate else enum extern false fn for if impl in let loop match \
        mod move mut pub ref return Self static struct super trait true type unsafe use where while \
        async await dyn abstract become box do final gen macro override priv try typeof unsized \
        virtual yield _";
    for word in words.split(' ') {
        let text = format!("fn f() {{ print!(\"{{}}\", {word}); }}");
        assert!(
            file_inlines(&text, &Table::standard(), MIXED)
                .text
                .is_none(),
            "{word}"
        );
    }
}

/// A label over two lines that are cut, of which the second one ends left of where the first begins.
#[test]
fn a_window_of_two_lines() {
    let indent = " ".repeat(20);
    let text = format!("{}{{name\n{indent}.b}}{}", "x".repeat(60), "y".repeat(80));
    let source = format!("\"{text}\"");
    let errors = errors_of(&text, None, Some(source.clone()), false, Format);
    let picture = Picture {
        path: "a.rs",
        source: &source,
        line_start: 1,
        literal_start: 0,
        width: 60,
        colours: false,
    };
    let drawing = draw(Format, &picture, &errors[0]);
    let wanted = [
        "  |".to_string(),
        format!("1 |   ...{}{{name", "x".repeat(43)),
        format!("  |  {}^", "_".repeat(48)),
        format!("2 | | ...  .b}}{}...", "y".repeat(43)),
        "  | |_______^ not supported in format string".to_string(),
    ];
    assert_eq!(drawing.lines().skip(2).take(5).collect::<Vec<_>>(), wanted);
}

/// What stands after a `;` is no argument.
#[test]
fn arguments_after_a_semicolon() {
    let text = "fn f(x: u8) { log::info!(\"{}\"; x, y); }";
    let made = file_inlines(text, &Table::with_crate_macros(), MIXED);
    assert!(made.text.is_none());
}

/// The digits after `\x`: an octal one and one in base 16. rustc refuses the other literals.
#[test]
fn digits_of_a_byte() {
    for content in [r"\x1g", r"\x8f", r"\xg1", r"\x1"] {
        assert!(read_content(content).is_none(), "{content}");
    }
    for (content, character) in [(r"\x1f", '\x1f'), (r"\x7F", '\x7f'), (r"\x00", '\0')] {
        let found = read_content(content).unwrap();
        assert_eq!(found[0].character, character, "{content}");
    }
}

/// Each text is one token of this kind, and so is a character that no token has.
#[test]
fn kinds_of_tokens() {
    for (kind, texts) in [
        (Kind::Unknown, "\\|`|\u{7f}|\u{1}|\u{80}|\u{a0}|€"),
        (Kind::Ident, "é|_|_1|b|b_|r2|cé|日本"),
        (Kind::RawIdent, "r#a|r#_|r#é"),
        (Kind::LineComment, "//|// a|//// a|////"),
        (Kind::OuterLineDoc, "///|/// a|///!"),
        (Kind::InnerLineDoc, "//!|//! a|//!/"),
        (
            Kind::BlockComment,
            "/**/|/***/|/*** a */|/* /**/ */|/* /* *// */|/* /*/ */ */|/*/ */",
        ),
        (Kind::OuterBlockDoc, "/** a */|/**a*/|/** /* */ */"),
        (Kind::InnerBlockDoc, "/*! a */|/*!*/|/*!/**/*/"),
        (Kind::Lifetime, "'a|'_|'ab|'é"),
        (Kind::RawLifetime, "'r#a|'r#é"),
        (Kind::Char, r"'a'|'\''|'\u{41}'|'é'|'a'_|'\\'"),
        (Kind::BinaryInt, "0b1|0b_0u8"),
        (Kind::OctalInt, "0o7|0o_7_"),
        (Kind::HexadecimalInt, "0x1f|0xE_f|0x1e5"),
        (Kind::DecimalInt, "0|10|1_0|10u8|1é"),
        (Kind::Float, "1e5|1E5|1e+5|1e-5|1e_5|0e1|1.0|1.5e-3|0.5f32"),
        (Kind::Str, r#""a"|"\""|"\\"|"é"|"a"_x"#),
    ] {
        for text in texts.split('|') {
            let list = tokens(text);
            let found: Vec<_> = list.iter().map(|it| (it.kind, it.is_ended)).collect();
            assert_eq!(found, [(kind, true)], "{text}");
        }
    }
}

/// The head of a file: a byte order mark and a shebang are tokens, an attribute is no shebang.
#[test]
fn heads_of_files() {
    let spans = |text| -> Vec<_> {
        tokens(text)
            .into_iter()
            .map(|it| (it.kind, it.span))
            .collect()
    };
    let wanted = [
        (Kind::ByteOrderMark, 0..3),
        (Kind::Shebang, 3..8),
        (Kind::Whitespace, 8..9),
    ];
    assert_eq!(spans("\u{feff}#!/sh\n"), wanted);
    assert_eq!(spans("#! /*a*/ // b\n x\n")[0], (Kind::Shebang, 0..13));
    assert_eq!(spans("#! /*a*/ // b\n [x]\n")[0], (Kind::Punct, 0..1));
    assert_eq!(spans("\u{feff}x")[0], (Kind::ByteOrderMark, 0..3));
    assert_eq!(spans("x\u{feff}")[1], (Kind::Unknown, 1..4));
}

/// A character counts as one column, but for a CR before an LF, after many lines too.
#[test]
fn places_of_line_ends() {
    let text = "\u{feff}é\r\n\r \r\n".to_string() + &"é\r\n".repeat(300);
    let (mut line, mut column) = (1, 1);
    let places = Places::new(&text);
    for (offset, c) in text.char_indices() {
        let found = places.place_of(offset);
        assert_eq!((found.line, found.column), (line, column), "{offset}");
        let is_counted = offset > 0 && !text[offset..].starts_with("\r\n");
        (line, column) = if c == '\n' {
            (line + 1, 1)
        } else {
            (line, column + usize::from(is_counted))
        };
    }
}

/// After a closing delimiter that nothing allows, those before it are not closed.
#[test]
fn breaks() {
    for (text, at) in [("( [ } )", 4), ("a ]", 2), ("(]", 1), ("([", 1), (") (", 0)] {
        assert_eq!(first_break(text), Some(at), "{text}");
    }
    assert_eq!(
        found("fn f() { print!(\"{}\", [} ); }", &Table::standard()),
        []
    );
}

/// Paths in front of macros of log: those of other crates are not read, a colon alone is no path.
#[test]
fn paths_of_macros_of_log() {
    for (front, count) in [
        ("", 1),
        ("::", 0),
        (" log::", 1),
        (";log::", 1),
        ("::log::", 1),
        ("x::", 0),
        ("é::", 0),
        ("a: ", 1),
        (":x:", 1),
        (": ", 1),
        ("crate::x::", 1),
        ("xlog::", 0),
        ("::x::log::", 1),
    ] {
        let text = format!("{front}info!(\"{{\");");
        assert_eq!(
            found(&text, &Table::with_crate_macros()).len(),
            count,
            "{front}"
        );
    }
}

/// A finding about a call begins with the path of its macro, in which no white space stands.
#[test]
fn paths_in_front_of_calls() {
    for (front, call) in [
        ("", "::std::format!()"),
        ("", "std::format!()"),
        ("", "Ā::format!()"),
        (" ", "é::a::format!()"),
        ("a :: ", "format!()"),
        ("s { a: ", "format!()"),
        ("a:", "format!()"),
        ("a::b ", "format!()"),
        (":", "format!()"),
    ] {
        let text = format!("{front}{call};");
        let report = file_faults(&text, &Table::standard(), true);
        let wanted = front.len()..front.len() + call.len();
        assert_eq!(report.findings[0].span, wanted, "{text}");
    }
}

/// A row that is added counts before the others, also of a raw name.
#[test]
fn rows_that_are_added() {
    let mut table = Table::standard();
    for (name, index) in [("x", 0), ("print", 1), ("format", 1)] {
        table.add(Row {
            name,
            rule: Rule::Index(index),
        });
    }
    let text = "print!(\"{\", \"}\"); format!(\"{\", \"}\"); r#x!(\"{\");";
    let ids: Vec<_> = found(text, &table).iter().map(|it| it.0).collect();
    let wanted = [
        "unmatched-closing-brace",
        "unmatched-closing-brace",
        "missing-closing-brace",
    ];
    assert_eq!(ids, wanted);
    assert_eq!(found("print!(\"{\", \"\"); r#y!(\"{\");", &table), []);
}

/// The arguments of a call that are not counted: a macro repeats or names some of them.
#[test]
fn numbers_of_arguments() {
    for (arguments, is_counted) in [
        ("$n = 1", false),
        ("$(a),*", false),
        ("#x", false),
        ("#(a),*", false),
        ("#[allow(x)] 1", true),
        ("#![x] 1", true),
        ("$x", true),
        ("x", true),
    ] {
        let text = format!("print!(\"{{}} {{}}\", {arguments});");
        assert_eq!(
            found(&text, &Table::standard()).len(),
            usize::from(is_counted),
            "{arguments}"
        );
    }
}

/// An operator of one character that is no prefix, one that is no operator after an operand, and a
/// value that is left out.
#[test]
fn operators_that_lack_nothing() {
    for argument in [
        "+", "|", "<", "x =>", "x ->", "x <-", "x ..", "x ?", "x !", "(x) !",
    ] {
        let text = format!("print!(\"{{}}\", {argument});");
        assert_eq!(found(&text, &Table::standard()), [], "{argument}");
    }
    let text = "info!(\"\", n = );";
    for finding in &file_faults(text, &Table::with_crate_macros(), true).findings {
        assert!(finding.span.start <= finding.span.end, "{:?}", finding.span);
    }
}

/// No attribute stands after a point, and one may stand behind others.
#[test]
fn attributes() {
    for (front, count) in [
        ("#[diagnostic.:on_unimplemented", 0),
        ("#[diagnostic:.on_unimplemented", 0),
        ("#[diagnostic::on_unimplemented", 1),
        ("pub #[a] #[diagnostic::on_unimplemented", 1),
        ("fn #[diagnostic::on_unimplemented", 1),
    ] {
        let text = format!("{front}(message = \"{{}}\")] trait T {{}}");
        assert_eq!(found(&text, &Table::standard()).len(), count, "{text}");
    }
}

/// Each byte of a literal is compared with its text.
#[test]
fn literals_that_differ_in_one_byte() {
    let text = "a".repeat(70);
    for at in 0..70 {
        for other in ["b", "\"", "\\", "\r"] {
            let snippet = format!("\"{}{other}{}\"", &text[..at], &text[at + 1..]);
            assert!(
                !is_source_literal(&text, None, &snippet, false),
                "{at} {other:?}"
            );
        }
    }
    assert!(is_source_literal(
        &text,
        None,
        &format!("\"{text}\""),
        false
    ));
}
