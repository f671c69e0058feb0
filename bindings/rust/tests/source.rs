//! Tokens, places and calls of files. Expected values are worked out by hand from the Rust Reference,
//! and places are those that rustc 1.95 reports.
#![cfg(feature = "lint")]
use dephungo::source::{first_break, calls, file_faults, file_fixes, tokens};
use dephungo::source::{BreakKind, CallReading, Kind, Places, Reason, Row, Rule, Table};
use std::path::{Path, PathBuf};

/// The files of this crate.
fn files(folder: &Path, found: &mut Vec<PathBuf>) {
    for entry in std::fs::read_dir(folder).unwrap() {
        let path = entry.unwrap().path();
        if path.is_dir() {
            files(&path, found);
        } else if path.extension().map_or(false, |it| it == "rs") {
            found.push(path);
        }
    }
}

/// The tokens of a file are one after the other, from its start to its end.
#[test]
fn tokens_join() {
    let mut found = Vec::new();
    files(
        &Path::new(env!("CARGO_MANIFEST_DIR")).join("src"),
        &mut found,
    );
    files(
        &Path::new(env!("CARGO_MANIFEST_DIR")).join("tests"),
        &mut found,
    );
    for path in &found {
        let text = std::fs::read_to_string(path).unwrap();
        let mut end = 0;
        for token in tokens(&text) {
            assert!(
                token.span.start == end && token.span.end > end,
                "{path:?} {end}"
            );
            assert!(
                token.span.contains(&(token.suffix_start - 1)),
                "{path:?} {end}"
            );
            assert!(
                token.is_ended && token.kind != Kind::Unknown,
                "{path:?} {end}"
            );
            end = token.span.end;
        }
        assert_eq!((end, first_break(&text)), (text.len(), None), "{path:?}");
        let report = file_faults(&text, &Table::standard(), true);
        assert!(
            report.first_break.is_none() && report.findings.is_empty(),
            "{path:?}"
        );
    }
    assert!(found.len() > 80);
}

#[test]
fn tokens_that_have_no_end() {
    for (text, kind) in [
        ("\"a", Kind::Str),
        ("r#\"a\"", Kind::RawStr),
        ("/* /* */", Kind::BlockComment),
    ] {
        let found = tokens(text);
        assert_eq!(
            (found.len(), found[0].kind, found[0].is_ended),
            (1, kind, false)
        );
    }
}

#[test]
fn tokens_of_rare_characters() {
    for (text, first) in [
        ("1e-3-", Kind::Float),
        ("1E+3_0f32-", Kind::Float),
        ("a\u{301}é-", Kind::Ident),
        ("\u{2028}\u{200e}\u{85}-", Kind::Whitespace),
    ] {
        let kinds: Vec<_> = tokens(text).iter().map(|it| it.kind).collect();
        assert_eq!(kinds, [first, Kind::Punct], "{text:?}");
    }
}

#[test]
fn places() {
    for (text, line, column) in [
        (
            "\u{feff}fn main() {\r\n    let x = \"é\"; y;\r\n}\r\n",
            2,
            18,
        ),
        ("\u{feff}y!(1);\nfn main() {}\n", 1, 1),
        ("fn main() {\n/* a\r\n b */ y;\n}\n", 3, 7),
    ] {
        let place = Places::new(text).place_of(text.find('y').unwrap());
        assert_eq!((place.line, place.column), (line, column));
    }
}

/// The names of the calls of a file of an edition, with their literals.
fn literals(text: &str, is_from_2021: bool) -> Vec<(String, Option<String>)> {
    let found = calls(text, &Table::standard(), is_from_2021);
    let shown =
        |it: &dephungo::source::Call<'_>| (it.name.to_string(), it.literal().map(String::from));
    found.iter().map(shown).collect()
}

#[test]
fn calls_of_a_file() {
    let text = "fn f() { std::println!(\"{}\", format![r#\"a\"#]); x.write!{w, \"b\", }; }";
    let wanted = [
        ("println", Some("\"{}\"")),
        ("format", Some("r#\"a\"#")),
        ("write", Some("\"b\"")),
    ];
    let wanted: Vec<_> = wanted
        .iter()
        .map(|(name, literal)| (name.to_string(), literal.map(String::from)))
        .collect();
    assert_eq!(literals(text, true), wanted);
    for none in [
        "$println!(\"a\")",
        "println!",
        "println(\"a\")",
        "// println!(\"a\")",
        "print!((",
    ] {
        assert_eq!(literals(none, true), [], "{none}");
    }
    let panic = "panic!(\"{}\")";
    assert_eq!(
        literals(panic, true),
        [("panic".to_string(), Some("\"{}\"".to_string()))]
    );
    assert_eq!(literals(panic, false), [("panic".to_string(), None)]);
}

#[test]
fn reasons() {
    for (text, is_wanted) in [
        (
            "format!()",
            (|it| matches!(it, Reason::NoArgument)) as fn(Reason) -> bool,
        ),
        ("format!($a)", |it| matches!(it, Reason::Variable)),
        ("format!(\"a\"u8)", |it| matches!(it, Reason::Suffix)),
        ("format!(concat!(\"a\"))", |it| matches!(it, Reason::Macro)),
        ("format!(a)", |it| matches!(it, Reason::Expression)),
    ] {
        let found = calls(text, &Table::standard(), true);
        assert!(found[0].string.map_or_else(is_wanted, |_| false), "{text}");
    }
}

#[test]
fn arguments() {
    let text = "print!(\"{}\", a, r#b = r#c, d::<E, F>(), g = 1 + h,)";
    let found = calls(text, &Table::standard(), true);
    let call = &found[0];
    assert_eq!(call.span, 0..text.len());
    let shown: Vec<_> = call
        .format_arguments()
        .iter()
        .map(|it| {
            (
                it.format_argument.name,
                it.format_argument.variable,
                it.text,
                &text[it.value.clone()],
            )
        })
        .collect();
    let wanted = [
        (None, Some("a"), "a", "a"),
        (Some("b"), None, "r#b = r#c", "r#c"),
        (None, None, "d::<E, F>()", "d::<E, F>()"),
        (Some("g"), None, "g = 1 + h", "1 + h"),
    ];
    assert_eq!(shown, wanted);
    // (`=>` is one token)
    let arrow = &calls("print!(\"\", a => b)", &Table::standard(), true)[0].arguments[1];
    assert_eq!((arrow.format_argument.name, arrow.text), (None, "a => b"));
    // (what is after the parameters of a closure is an expression)
    let closure = &calls("print!(\"\", |a| a < b, c > d)", &Table::standard(), true)[0];
    let texts = closure.format_arguments().iter().map(|it| it.text);
    assert_eq!(texts.collect::<Vec<_>>(), ["|a| a < b", "c > d"]);
    let empty = &calls("print!(\"\", , a)", &Table::standard(), true)[0].arguments[1];
    assert_eq!((empty.span.clone(), empty.text), (11..11, ""));
}

/// A comma in the parameters of a type or of a closure is none between arguments, whatever keyword
/// stands in front.
#[test]
fn arguments_after_keywords() {
    for argument in [
        "break <A as B<C, D>>::e()",
        "if <A as B<C, D>>::e() {}",
        "match <A as B<C, D>>::e() {}",
        "return <A as B<C, D>>::e()",
        "while <A as B<C, D>>::e() {}",
        "for a in <A as B<C, D>>::e() {}",
        "yield <A as B<C, D>>::e()",
        "move |a, b| a",
        "async |a, b| a",
        "static |a, b| a",
        "x as &'a mut A<B, C>",
        "x as *const A<B, C>",
    ] {
        let text = format!("print!(\"\", {argument}, x)");
        let found = calls(&text, &Table::standard(), true);
        let texts = found[0].format_arguments().iter().map(|it| it.text);
        assert_eq!(texts.collect::<Vec<_>>(), [argument, "x"]);
    }
}

#[test]
fn tables() {
    let mut table = Table::with_crate_macros();
    assert!(table.rows().iter().any(|row| row.name == "bail"));
    table.add(Row {
        name: "bail",
        rule: Rule::Index(1),
    });
    let found = calls("bail!(1, \"a\"); info!(b = 2, \"c\")", &table, true);
    let shown: Vec<_> = found.iter().map(|call| call.literal()).collect();
    assert_eq!(shown, [Some("\"a\""), Some("\"c\"")]);
}

/// A macro with a name of log, tracing or slog is another one after a path of another crate.
#[test]
fn paths_of_macros() {
    let text = "kv_log_macro::info!(\"{\"); log::info!(\"\"); crate::warn!(\"\"); a::bail!(\"\");";
    let report = file_faults(text, &Table::with_crate_macros(), true);
    assert!(report.findings.is_empty());
    assert!(matches!(
        report.calls[..],
        [
            CallReading::ForeignMacro,
            CallReading::Whole,
            CallReading::Whole,
            CallReading::Whole,
        ]
    ));
}

/// How much of each call is read, and the findings, at the places that rustc 1.95 reports.
#[test]
fn reports() {
    let text = [
        "\u{feff}macro_rules! write { ($($x:tt)*) => { () } }",
        "macro_rules! m { ($($x:expr),*) => { print!(\"{} é{\", $($x),*) } }",
        "fn main() {",
        "    let x = 1;",
        "    println!(\"é {}\", y = x);",
        "    write!(x, \"{}\");",
        "    panic!(x);",
        "    print!(\"\\q\");",
        "    format!(\"{} {}\", x);",
        "    format!(\"{} {}}\", , x);",
        "    format!(\"{} {}}\", x x);",
        "    write!(x, );",
        "    println!(\"{}\" x);",
        "    print!();",
        "}",
    ]
    .join("\r\n");
    let report = file_faults(&text, &Table::standard(), true);
    assert!(report.first_break.is_none());
    assert!(matches!(
        report.calls[..],
        [
            CallReading::StringAlone,
            CallReading::Whole,
            CallReading::RedefinedMacro,
            CallReading::Unread(Reason::Expression),
            CallReading::Malformed,
            CallReading::Whole,
            CallReading::NoExpression,
            CallReading::NoComma,
            CallReading::RedefinedMacro,
            CallReading::NoComma,
            CallReading::Unread(Reason::NoArgument),
        ]
    ));
    let places = Places::new(&text);
    let shown: Vec<_> = report
        .findings
        .iter()
        .map(|it| {
            let place = places.place_of(it.span.start);
            (place.line, place.column, it.id, it.is_warning)
        })
        .collect();
    let wanted = [
        (2, 51, "missing-closing-brace", false),
        (5, 22, "name-used-by-index", true),
        (7, 12, "no-string-literal", false),
        (9, 14, "missing-argument", false),
        (10, 23, "missing-expression", false),
        (11, 25, "missing-comma", false),
        (13, 19, "missing-comma", false),
        (14, 5, "missing-format-string", false),
    ];
    assert_eq!(shown, wanted);
    let titles: Vec<_> = report.findings[2..]
        .iter()
        .map(|it| &it.title[..])
        .collect();
    let wanted = [
        "format argument must be a string literal",
        "2 positional arguments in format string, but there is 1 argument",
        "expected expression, found `,`",
        "expected one of `!`, `,`, `.`, `::`, `?`, `{`, or an operator, found `x`",
        "expected `,`, found `x`",
        "requires at least a format string argument",
    ];
    assert_eq!(titles, wanted);
    let help = report.findings[2].help.as_ref().unwrap();
    assert_eq!(
        help.text,
        "you might be missing a string literal to format with"
    );
    assert_eq!(help.edits[0].text, "\"{}\", ");
}

/// Of a call whose arguments a macro repeats, a help counts that needs none of them.
#[test]
fn helps_in_macros() {
    let help = |string: &str| {
        let text =
            format!("macro_rules! m {{ ($($x:expr),*) => {{ print!({string}, $($x),*) }} }}");
        let findings = file_faults(&text, &Table::standard(), true).findings;
        let help = findings[0].help.as_ref()?;
        let edits = help.edits.iter().map(|it| (it.range.clone(), &it.text[..]));
        Some(format!("{} {:?}", help.text, edits.collect::<Vec<_>>()))
    };
    let wanted = "did you mean `#?`? [(48..50, \"#?\")]";
    assert_eq!(help("\"{a:?#}\"").as_deref(), Some(wanted));
    assert_eq!(help("\"{a.b}\""), None);
}

/// Each of these faults comes before all earlier ones in a parser's list. Their time grows as the text
/// does: if each of them moved the others, this would take minutes.
#[test]
fn many_faults_in_front() {
    let text = format!("print!(\"{}\")", "{+".repeat(1 << 17));
    let findings = file_faults(&text, &Table::standard(), true).findings;
    assert_eq!((findings.len(), findings[0].id), (1, "sign-before-colon"));
}

/// A range has whole characters. (rustc 1.95 ends with an error of its own over this text, in which the
/// place that it computes is within a character.)
#[test]
fn ranges_of_whole_characters() {
    let text = "#[diagnostic::on_unimplemented(message = r#\"{é?}\"#)] trait A {}";
    let findings = file_faults(text, &Table::standard(), true).findings;
    let labels = &findings[0].labels;
    assert_eq!(findings[0].title, "expected `}`, found `?`");
    assert!(labels.len() == 2 && labels.iter().all(|it| text.get(it.range.clone()).is_some()));
}

/// Calls in front of the place where a file breaks are read.
#[test]
fn breaks() {
    for (end, at, wanted) in [
        ("fn f() {", 7, "unclosed"),
        ("fn f(]", 5, "unexpected"),
        ("const A: &str = \"", 16, "unended"),
    ] {
        let front = "format!(\"{}\");\n";
        let report = file_faults(&format!("{front}{end}"), &Table::standard(), true);
        let first_break = report.first_break.unwrap();
        let kind = match first_break.kind {
            BreakKind::UnclosedDelimiter => "unclosed",
            BreakKind::UnexpectedDelimiter => "unexpected",
            BreakKind::UnterminatedToken => "unended",
        };
        assert_eq!((first_break.start, kind), (front.len() + at, wanted));
        assert_eq!(report.findings.len(), 1);
    }
}

/// The suggestions that rustc 1.95 calls applicable by a machine are applied, those to all faults
/// in a round; other faults stay as they are.
#[test]
fn fixes() {
    let fixed = |text: &str| {
        let fixes = file_fixes(text, &Table::standard(), true);
        (fixes.text, fixes.ids, fixes.report.findings.len())
    };
    let whole = |text: &str, ids: &[&'static str]| (Some(text.to_owned()), ids.to_vec(), 0);
    let of = |calls: &str| format!("fn f() {{ let x = 1; {calls} }}");
    assert_eq!(
        fixed(&of(
            "print!(\"{r#x}\"); print!(\"{x?}\"); print!(\"{x:?#}\");"
        )),
        whole(
            &of("print!(\"{x}\"); print!(\"{x:?}\"); print!(\"{x:#?}\");"),
            &["raw-identifier", "missing-colon", "flag-after-type"],
        ),
    );
    assert_eq!(
        fixed(&of(
            "print!(\"{t.0}\"); print!(\"{x} {a.b}\"); print!(\"a\");"
        )),
        whole(
            &of("print!(\"{0}\", t.0); print!(\"{x} {0}\", a.b); print!(\"a\");"),
            &["tuple-index", "field-access"],
        ),
    );
    let (text, ids, count) = fixed(&of(&"print!(\"{r#x}\"); ".repeat(20)));
    assert_eq!(text, Some(of(&"print!(\"{x}\"); ".repeat(20))));
    assert_eq!((ids, count), (vec!["raw-identifier"; 20], 0));
    // (one literal with many faults, of which a reading shows one)
    let literal = |placeholder: &str| of(&format!("print!(\"{}\");", placeholder.repeat(40)));
    let (text, ids, count) = fixed(&literal("{r#x}"));
    assert_eq!(text, Some(literal("{x}")));
    assert_eq!((ids, count), (vec!["raw-identifier"; 40], 0));
    // (the others of a string are mended with the one that is shown, and those of no other string)
    let many = |placeholder: &str| literal(placeholder).replace("x = 1", "x = \"{r#x}{x?}\"");
    for (old, new, id) in [
        ("{r#x}", "{x}", "raw-identifier"),
        ("\\n{x?}\\u{e9}\u{e9}", "\\n{x:?}\\u{e9}\u{e9}", "missing-colon"),
        ("\r\n{x:?#}", "\r\n{x:#?}", "flag-after-type"),
        ("\\\r\n  {r#x}\\x7b\n", "\\\r\n  {x}\\x7b\n", "raw-identifier"),
    ] {
        let (text, ids, _) = fixed(&many(&old.repeat(100)));
        assert_eq!(text, Some(many(&new.repeat(100))));
        assert_eq!(ids, vec![id; 4000]);
    }
    let (text, ids, count) = fixed(&literal(&"{r#x}{x?}{{{x:?x}".repeat(100)));
    assert_eq!(text, Some(literal(&"{x}{x:?}{{{x:x?}".repeat(100))));
    assert_eq!((ids.len(), count), (12000, 0));
    for (calls, count) in [
        ("print!(\"{x}\", x);", 1),
        ("print!(\"{_}\");", 1),
        ("print!(\"{\");", 1),
        ("print!(x);", 1),
        ("print!(\"{x:d}\");", 1),
    ] {
        assert_eq!(fixed(&of(calls)), (None, vec![], count), "{calls}");
    }
    assert_eq!(fixed("fn f() { print!(\"{r#x}\");"), (None, vec![], 1));
}
