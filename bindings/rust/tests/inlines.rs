//! Files whose calls are inlined, calls that are left, and the reasons.
#![cfg(feature = "lint")]

use dephungo::source::{file_inlines, CallInlining, CallReading, InlineOptions, Obstacle, Table};

/// The literal and the arguments of a call of `format!`, what clippy 1.95 suggests for
/// `uninlined_format_args` with mixed calls allowed, and whether arguments stay.
const ROWS: [(&str, &str, &str, bool); 47] = [
    (r#""{}""#, "x", r#""{x}""#, false),
    (r#""{}, {:>w$}""#, "x, y, w = w", r#""{x}, {y:>w$}""#, false),
    (r#""{0} {1} {0}""#, "x, y", r#""{x} {y} {x}""#, false),
    (r#""{1} {0}""#, "x, y", r#""{y} {x}""#, false),
    (r#""{0:1$}""#, "x, w", r#""{x:w$}""#, false),
    (r#""{:1$}""#, "x, w", r#""{x:w$}""#, false),
    (r#""{:.*}""#, "p, 1.0", r#""{:.p$}", 1.0"#, true),
    (r#""{:.*}""#, "p, f", r#""{f:.p$}""#, false),
    (r#""{0:.*} {1}""#, "p, f", r#""{p:.p$} {f}""#, false),
    (r#""{:w$.p$}""#, "f, w = w, p = p", r#""{f:w$.p$}""#, false),
    (r#""{:1$.2$}""#, "f, w, p", r#""{f:w$.p$}""#, false),
    (r#""{:>0$}""#, "w", r#""{w:>w$}""#, false),
    (r#""{:0.p$}""#, "f, p = p", r#""{f:0.p$}""#, false),
    (r#""{a} {b}""#, "a = x, b = y", r#""{x} {y}""#, false),
    (r#""{a} {}""#, "y, a = x", r#""{x} {y}""#, false),
    (r#""{x}""#, "x = x", r#""{x}""#, false),
    (r#""{x:w$}""#, "x = x, w = w", r#""{x:w$}""#, false),
    (r#""{y} {}""#, "x", r#""{y} {x}""#, false),
    (r#""{} {}""#, "x, x + 1", r#""{x} {}", x + 1"#, true),
    (r#""{1} {}""#, "x + 1, x", r#""{x} {}", x + 1"#, true),
    (
        r#""{} {} {}""#,
        "x, y + 1, w",
        r#""{x} {} {w}", y + 1"#,
        true,
    ),
    (
        r#""{:1$} {:2$} {}""#,
        "x + 1, w, p",
        r#""{:w$} {w:p$} {p}", x + 1"#,
        true,
    ),
    (
        r#""{:.*} {}""#,
        "w + 1, f, x",
        r#""{f:.*} {x}", w + 1"#,
        true,
    ),
    (r#""{:.1$}""#, "f + 1.0, p", r#""{:.p$}", f + 1.0"#, true),
    (
        r#""{b} {a} {}""#,
        "x, a = y + 1, b = w",
        r#""{w} {a} {x}", a = y + 1"#,
        true,
    ),
    (r#""{}""#, "MAX", r#""{MAX}""#, false),
    (r#""{}""#, "r#type", r#""{type}""#, false),
    (r#""{t}""#, "t = r#type", r#""{type}""#, false),
    (
        r#""{:#?} {:08.3} {:+e} {:<5} {:*^7} {:#x} {:x?}""#,
        "x, f, f, x, y, x, x",
        r#""{x:#?} {f:08.3} {f:+e} {x:<5} {y:*^7} {x:#x} {x:x?}""#,
        false,
    ),
    (
        r#""{{}} {} {{{}}}""#,
        "x, y",
        r#""{{}} {x} {{{y}}}""#,
        false,
    ),
    (
        r#""\x7b\x7b {} \u{7d}\u{7d}""#,
        "x",
        r#""\x7b\x7b {x} \u{7d}\u{7d}""#,
        false,
    ),
    (r#""\u{7b}\x7d""#, "x", r#""\u{7b}x\x7d""#, false),
    (r#""{\x30}""#, "x", r#""{x}""#, false),
    (r#"r"{} \""#, "x", r#"r"{x} \""#, false),
    (
        r###"r##"{} "# {}"##"###,
        "x, y",
        r###"r##"{x} "# {y}"##"###,
        false,
    ),
    (r#""ä{}ö{:ä>1$}""#, "x, w", r#""ä{x}ö{w:ä>w$}""#, false),
    (r#""{ } {0 } {1 :?}""#, "x, y", r#""{x} {x} {y:?}""#, false),
    (r#""{}""#, "größe", r#""{größe}""#, false),
    (r#""{}""#, "S", r#""{S}""#, false),
    (r#""{0:0$}""#, "w", r#""{w:w$}""#, false),
    (r#""{0:.0$} {}""#, "w", r#""{w:.w$} {w}""#, false),
    (r#""{:w$}""#, "x", r#""{x:w$}""#, false),
    (r#""{:w$} {w}""#, "x, w = w", r#""{x:w$} {w}""#, false),
    (
        r#""{:w$} {w}""#,
        "x, w = w + 1",
        r#""{x:w$} {w}", w = w + 1"#,
        true,
    ),
    (r#""{x} {}""#, "y, x = w", r#""{w} {y}""#, false),
    (r#""{} {x}""#, "y + 1, x = w", r#""{} {w}", y + 1"#, true),
    (r#""{}""#, "a = x", r#""{x}""#, false),
];

/// Calls that clippy leaves as they are, since an index stays. The results print the same.
const NUMBERED: [(&str, &str, &str, bool); 2] = [
    (
        r#""{0} {2} {1}""#,
        "x, y + 1, w",
        r#""{x} {w} {0}", y + 1"#,
        true,
    ),
    (
        r#""{2} {1} {0} {2}""#,
        "x + 1, y, w + 1",
        r#""{1} {y} {0} {1}", x + 1, w + 1"#,
        true,
    ),
];

/// The macros of the standard library, and those of log, tracing, slog, anyhow and eyre.
fn table() -> Table<'static> {
    let mut table = Table::standard();
    for row in Table::with_crate_macros().rows() {
        table.add(*row);
    }
    table
}

/// A file with its calls inlined, or `None` if it stays as it is.
fn inlined(text: &str, is_from_2021: bool, allows_mixed: bool) -> Option<String> {
    let options = InlineOptions {
        is_from_2021,
        allows_mixed,
    };
    file_inlines(text, &table(), options).text
}

/// What becomes of the calls of a file.
fn calls(text: &str, is_from_2021: bool, allows_mixed: bool) -> Vec<CallInlining> {
    let options = InlineOptions {
        is_from_2021,
        allows_mixed,
    };
    file_inlines(text, &table(), options).calls
}

#[test]
fn calls_become_those_of_clippy() {
    for (literal, arguments, after, is_mixed) in ROWS.iter().chain(&NUMBERED) {
        let text = format!("fn f() {{ format!({literal}, {arguments}); }}");
        let expected = Some(format!("fn f() {{ format!({after}); }}"));
        assert_eq!(inlined(&text, true, true), expected, "{text}");
        let expected = if *is_mixed { None } else { expected };
        assert_eq!(inlined(&text, true, false), expected, "{text}");
    }
}

#[test]
fn files_with_calls_inlined() {
    let rows = [
        // CRs stay, but those in what is removed
        (
            "print!(\"\r\n{}\\\r\n {}\",\r\n x,\r\n y\r\n);\r\n",
            "print!(\"\r\n{x}\\\r\n {y}\"\r\n);\r\n",
        ),
        ("\u{feff}print!(\"ä{}\", x);", "\u{feff}print!(\"ä{x}\");"),
        // edits of a call stand between those of another one
        (
            "print!(\"{} {} {}\", x, format!(\"{}\", y), z);",
            "print!(\"{x} {} {z}\", format!(\"{y}\"));",
        ),
        (
            "print!(r#\"{}\"{0}\"#, x,); print!(\"{:1$}\", y, w)",
            "print!(r#\"{x}\"{x}\"#,); print!(\"{y:w$}\")",
        ),
        ("print!(\"{}\", self)", "print!(\"{self}\")"),
        // a `;` ends the arguments of slog
        (
            "info!(log, \"{} {}\", x, y; \"k\" => z);",
            "info!(log, \"{x} {y}\"; \"k\" => z);",
        ),
    ];
    for (text, expected) in rows {
        assert_eq!(
            inlined(text, true, true).as_deref(),
            Some(expected),
            "{text}"
        );
        assert_eq!(inlined(expected, true, true), None, "{expected}");
    }
}

#[test]
fn calls_that_are_left() {
    use CallInlining::{Assembly, Unchanged, Unread};
    let rows = [
        ("print!(\"{x}\");", true, Unchanged(Obstacle::NoVariable)),
        ("print!(\"{}\", crate);", true, Unchanged(Obstacle::NoVariable)),
        ("print!(\"{}\", &x);", true, Unchanged(Obstacle::NoVariable)),
        // a letter and a mark, which rustc joins in a name of the source alone
        ("print!(\"{}\", o\u{300});", true, Unchanged(Obstacle::NoVariable)),
        ("print!(\"{}\", x, y);", true, Unchanged(Obstacle::Faulty)),
        ("print!(\"{} {}\", x);", true, Unchanged(Obstacle::Faulty)),
        ("print!(\"{}\", /* why */ x);", true, Unchanged(Obstacle::Comment)),
        // `{x}` would be the argument that stays
        (
            "print!(\"{} {x}\", x, x = f());",
            true,
            Unchanged(Obstacle::OtherMeaning),
        ),
        ("panic!(\"{}\", x);", true, Unchanged(Obstacle::ConstForm)),
        ("panic!(\"{} \", x);", false, Unchanged(Obstacle::Alone)),
        ("bail!(\"{} \", x);", true, Unchanged(Obstacle::Alone)),
        (
            "unreachable!(\"{} {}\", x, -y);",
            false,
            Unchanged(Obstacle::CapturesNone),
        ),
        (
            "macro_rules! m { ($($x:tt)*) => { print!(\"{} {}\", y, $($x)*) } }",
            true,
            Unchanged(Obstacle::Uncounted),
        ),
        (
            "macro_rules! print { () => {} } print!(\"{}\", x);",
            true,
            Unread(CallReading::RedefinedMacro),
        ),
        ("asm!(\"{}\", in(reg) x);", true, Assembly),
    ];
    for (text, is_from_2021, reason) in rows {
        assert_eq!(inlined(text, is_from_2021, true), None, "{text}");
        assert_eq!(calls(text, is_from_2021, true), [reason], "{text}");
    }
}

#[test]
fn files_that_break_stay() {
    for text in [
        "fn f() { print!(\"{}\", x);",
        "print!(\"{}\", x); }",
        "print!(\"{}\", x); \"",
    ] {
        assert_eq!(inlined(text, true, true), None, "{text}");
        assert_eq!(calls(text, true, true), [CallInlining::Inlined], "{text}");
    }
}
