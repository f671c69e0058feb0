//! What is found in calls and attributes, in rows that find mutants of the crate which no other test does.
//! What is found, and that nothing is, is what rustc 1.95 says.
#![cfg(feature = "lint")]
use dephungo::literal::Literal;
use dephungo::source::{calls, file_faults, file_fixes, Finding, Table};
use dephungo::ParseMode::Format;

/// The findings of a file.
fn findings(text: &str, is_from_2021: bool) -> Vec<Finding> {
    file_faults(text, &Table::standard(), is_from_2021).findings
}

/// The findings of a file, each with its id and its text.
fn found(text: &str) -> Vec<(&'static str, &str)> {
    let list = findings(text, true);
    list.iter()
        .map(|it| (it.id, &text[it.span.clone()]))
        .collect()
}

/// The ids of the findings of a file.
fn ids(text: &str) -> Vec<&'static str> {
    found(text).iter().map(|it| it.0).collect()
}

/// Calls without a format string: some want one.
#[test]
fn calls_without_a_string() {
    for (names, wanted) in [
        ("format format_args print eprint", 1),
        ("println eprintln panic todo unimplemented unreachable", 0),
    ] {
        for name in names.split(' ') {
            assert_eq!(found(&format!("{name}!();")).len(), wanted, "{name}");
        }
    }
    for (call, wanted) in [("write!(w,)", 1), ("writeln!(w,)", 0), ("assert!(w,)", 0)] {
        assert_eq!(found(&format!("{call};")).len(), wanted, "{call}");
    }
}

/// A name that is no argument, where no variable is captured, is a fault once, with two notes.
#[test]
fn names_that_are_not_captured() {
    let list = findings("unreachable!(\"{x} {x} {}\", 1);", false);
    let notes: Vec<_> = list[0].notes.iter().map(|it| it.text.as_str()).collect();
    let wanted = [
        "did you intend to capture a variable `x` from the surrounding scope?",
        "to avoid ambiguity, `format_args!` cannot capture variables when the format string is expanded \
         from a macro",
    ];
    assert_eq!(
        (list.len(), list[0].id, &notes[..]),
        (1, "missing-name", &wanted[..])
    );
}

/// A text with a directive of `printf` or a variable of a shell gets no help: rustc has notes on these.
#[test]
fn directives() {
    let helps = |text: &str| {
        let list = findings(&format!("print!(\"{text}\", 1);"), true);
        assert_eq!((list.len(), list[0].id), (1, "unused-argument"), "{text}");
        list[0].help.is_some()
    };
    for text in [
        "%hd", "%jd", "%ld", "%qd", "%td", "%zd", "%Id", "%Ld", "%lld", "%%%d", "%é", "$_", "$0",
        "$x", "$$$x", "%$", "$%d", "%$x", "% d", "%l-", "%lé", "%l$x", "xx%d", "l%d", "%d%",
    ] {
        assert!(!helps(text), "{text}");
    }
    for text in [
        "", "%", "a%", "%%", "%%d", "%h", "%j", "%l", "%q", "%t", "%z", "%I", "%L", "$", "$$",
        "$$x", "$-", "$ x", "$é", "hd", "lx%", "aad", "\\u{1}d",
    ] {
        assert!(helps(text), "{text}");
    }
}

/// Each of these is one argument.
#[test]
fn commas_in_an_argument() {
    for argument in [
        "x as T<fn() -> U, V>",
        "1 + |a, b| c",
        "x as A<B<C>, D>",
        "x as A<B<C<D>>, E>",
        "x? + |a, b| c",
        "x as A<B, C> + |a, b| c",
        "f(()) + |a, b| c",
        "(() as A<(), B>)",
        "x as fn() -> A<B, C>",
        "x as & 'a mut A<B, C>",
    ] {
        let text = format!("print!(\"{{}} {{}}\", {argument});");
        assert_eq!(ids(&text), ["missing-argument"], "{argument}");
        let text = format!("print!(\"{{}}\", {argument});");
        assert_eq!(found(&text), [], "{argument}");
    }
    // (two arguments, and none with a name)
    assert_eq!(found("print!(\"{} {}\", x <y, z> (w));"), []);
    assert_eq!(found("print!(\"{x} {}\", x == y);"), []);
    assert_eq!(ids("print!(\"{x} {}\", x = y);"), ["name-used-by-index"]);
    assert_eq!(found("print!(\"{}\" $x); print!($x \"{}\");"), []);
}

/// Arguments of inline assembly: operands count, options and ABIs do not, and of another argument
/// nothing is known.
#[test]
fn operands() {
    for operand in [
        "in(reg) x",
        "out(reg) x",
        "inout(reg) x",
        "lateout(reg) x",
        "inlateout(reg) x => y",
        "const 1",
        "sym f",
        "label { x }",
    ] {
        assert_eq!(
            found(&format!("asm!(\"{{}}\", {operand});")),
            [],
            "{operand}"
        );
        let text = format!("asm!(\"nop\", options(nostack), {operand}, clobber_abi(\"C\"));");
        assert_eq!(found(&text), [("unused-argument", operand)]);
        let text = format!("asm!(\"{{a}}\", a = {operand});");
        assert_eq!(found(&text), [], "{operand}");
    }
    for (arguments, wanted) in [
        ("\"{}\", options(nostack)", &["wrong-operand"][..]),
        ("\"{}\", clobber_abi(\"C\")", &["wrong-operand"]),
        ("\"{\", options(nostack)", &["missing-closing-brace"]),
        ("\"{\", options(raw)", &[]),
        (
            "\"{\", options(nostack), in(raw) x",
            &["missing-closing-brace"],
        ),
        ("\"{}\", a = options(raw)", &[]),
        ("\"{\", a = options(raw)", &["missing-closing-brace"]),
        ("\"{} {\", foo", &["missing-closing-brace"]),
        ("\"{}\", foo(reg) x", &[]),
        ("\"{}\", in[reg] x", &[]),
    ] {
        assert_eq!(ids(&format!("asm!({arguments});")), wanted, "{arguments}");
    }
}

/// The place of a finding is the first of its primary ones.
#[test]
fn first_of_several_places() {
    let text = "asm!(\"\", in(reg) x, in(reg) yy);";
    assert_eq!(found(text), [("unused-argument", "in(reg) x")]);
    let text = "asm!(\"{a}\", a = in(reg) x, in(reg) yy);";
    assert_eq!(found(text)[0].1, "in(reg) yy");
    assert_eq!(found("print!(\"a\", x, yy);"), [("unused-argument", "x")]);
}

/// The parameters of a trait: names after an angle or a comma outside of others.
#[test]
fn parameters() {
    let head = "#[diagnostic::on_unimplemented(message = \"{A}{B}{C}{D}{E}\")]";
    for (list, wanted) in [
        ("<A, B, C, D, E>", ""),
        ("<A: X<B>, C>", "BDE"),
        ("<A: X<Y<B>>, C>", "BDE"),
        ("<A: Fn() -> B, C>", "BDE"),
        ("<A: X<fn() -> B, D>, C>", "BDE"),
        ("<const A: B, C = D>", "BDE"),
        ("<A: X, B: Y = Z, C, D>", "E"),
        ("<A: X<B> + Y<C>, D>", "BCE"),
        ("<A>: B<C, D, E>", "BCDE"),
    ] {
        let text = format!("{head} trait T{list} {{}}");
        let names: String = found(&text).iter().map(|it| &it.1[..1]).collect();
        assert_eq!(names, wanted, "{list}");
    }
}

/// Of several messages and labels the first counts, and each note does.
#[test]
fn options_that_count() {
    for (options, wanted) in [
        ("label = \"\", message = \"{}\"", 1),
        ("message = \"\", message = \"{}\"", 0),
        ("message = \"\", label = \"{}\"", 1),
        ("label = \"\", label = \"{}\"", 0),
        ("note = \"{}\", note = \"{}\"", 2),
    ] {
        let text = format!("#[diagnostic::on_unimplemented({options})] trait T {{}}");
        assert_eq!(found(&text).len(), wanted, "{options}");
    }
}

/// Calls among delimiters that do not match.
#[test]
fn calls_among_breaks() {
    let table = Table::standard();
    assert_eq!(calls("print!(\"{}\", [} )", &table, true).len(), 0);
    let list = calls("] } print!(\"{}\", (1), [2]) )", &table, true);
    assert_eq!((list.len(), list[0].arguments.len()), (1, 3));
}

/// The tokens and the places of a literal to which a newline is appended.
#[test]
fn literals_with_a_newline() {
    let literal = Literal::new("\"a{x}\\n\"", Format).unwrap().with_newline();
    let spans: Vec<_> = literal.tokens().into_iter().map(|it| it.span).collect();
    assert_eq!(spans, [0..1, 1..2, 2..3, 3..4, 4..5, 5..7, 7..8]);
    let text = "println!(\"\\\"}\"); println!(\"é}\"); println!(\"\\n\\n\\n}\");";
    for finding in findings(text, true) {
        assert_eq!(&text[finding.span], "}");
    }
}

/// Suggestions that are not applied to a file, and some that are.
#[test]
fn suggestions_that_are_applied() {
    let fixed = |text| file_fixes(text, &Table::standard(), true).text;
    for call in [
        "print!(x);",
        "print!(\"{x}\", x);",
        "print!(b\"{x}\");",
        "print!(\"{:d}\", x);",
        "print!(\"{x=}\", x = 1);",
        "print!(\"{}\", x = 1);",
    ] {
        assert_eq!(fixed(call), None, "{call}");
    }
    for (call, wanted) in [
        ("print!(\"{r#a}\");", "print!(\"{a}\");"),
        ("print!(\"{x?}\");", "print!(\"{x:?}\");"),
        ("print!(\"{x:?#}\");", "print!(\"{x:#?}\");"),
        ("print!(\"{a.b}\");", "print!(\"{0}\", a.b);"),
        ("print!(\"{a.0}\");", "print!(\"{0}\", a.0);"),
    ] {
        assert_eq!(fixed(call).as_deref(), Some(wanted), "{call}");
    }
}
