//! The crate of bindings/rust beside another build of itself, over random files of Rust: files SEED
//! COUNT. Tokens, places, breaks, calls with their arguments, and the faults of each call are the
//! same.
mod cases;
use cases::Random;

/// Parts of files. Some begin a token that has no end.
#[rustfmt::skip]
const PARTS: &[&str] = &[
    "println!(\"{}\");", "println!(\"{} {x}\", 1, 2);\n", "format!(\"{a?}\")", "say!(a, \"{0}{9}\", b)",
    "write!(w, r#\"{\"#)\r\n", "panic!(x);", "panic!(\"{}\");", "say!(\"{\")", "std::print![\"{:q}\"]",
    "info!(a = 1, \"{:q}\", c);", "assert!(a, \"{}\", a = 1, b);", "format!(\"é日 {:.*} {e}}\", 1)",
    "print!(concat!(\"a\"), 1)", "macro_rules! format { () => {} }", "print!(\"\\q\")", "unreachable!()",
    "print!(\"{0} {0} {1}\", a = b, a = c, d)", "print!(\"{}{:.1$}{:2$}\", a, b, b, r#c = 1, c)",
    "print!(\"{:w$} {w} {v}\", v = a, move |a, b| c, d::<E, F>(), x as T<U, V>, |a| b, g = 1 + h,)",
    "$print!(\"{}\")", "$crate::print!(\"}\")", "print!(\"{}\", $($a),*)", "print!($a)", "print!(\"a\"u8)",
    "print!(\"{} {}\", a $)",
    "print!(\"{} {}\", f::<fn(A) -> B, C>(), a == b, c => d)", "print!(\"{}\", a::<B<C>, D>(), x >= y)",
    "print!(\"{} {}\", <A as B<C, D>>::f(), x as A<B<C>, D>, a -> b, c != d, e <= f, g)",
    "print!(\"{}\", x as T <= y, z > w)", "print!(\"{}\", a || b, c || d, e | f, g | h, i)",
    "print!(\"{}\", || a, move || b, move |c, d| e)", "print!(\"{}\", a & !b, *c, d!(e, f), g::<!>())",
    "format_args!(\"{:.*}\", )", "print!(\"{x} {}\", y = x, z, x)", "print!(\"{x}\", y = x, z);",
    "print!(, a)", "print!{}", "r#print!(\"{}\")", "print !( \"{}\" , a )",
    "asm!(\"{} {1}\", in(reg) a, out(\"eax\") b)", "asm!(\"{a}\", \"{0:ex}\", a = const 1, sym b)", "asm!(\"{\")",
    "global_asm!(r\"{}\", options(raw))", "naked_asm!(\"{b}\", label {}, $(in(reg) $a),*)", "asm!(a)",
    "#[diagnostic::on_unimplemented(message = \"{A} {B}\", label = \"{}\", note = \"{A:?}\")]\n", "pub ",
    "trait A<'a, B: C<D>, const E: usize> {}", "#[diagnostic::on_unimplemented(label = \"{\")] trait A {}",
    "{", "}", "(", ")", "[", "]", "\"", "'", "\\", "/*", "*/", "//", "///", "/**/", "/***/", "/*! a */",
    "\u{feff}", "\n", "\r", "\r\n", "\t", " ", "fn f() ", "/* } */", "'a'", "'a", "'\\''", "'\\u{41}'",
    "'é'", "'r#b", "a < b, c > d", "a", "r#a", "é", "日", "\u{e9}\u{301}", "#!/bin/sh\n", "#![a]", "#",
    "r\"", "r#\"", "\"#", "br\"a\"", "b\"\\x41\"", "b'a'", "c\"a\"", "cr#\"a\"#u8", "\"a\"suffix", "f\"a\"",
    "0", "12_u8", "0x1F", "0b12", "0o", "1.", "1.5e", "1e+3f32", "1..2", "0xe+1", "1.a", "\u{0}", "\u{200e}",
    "!", "=", "==", "=>", ",", ";", "::", "<<", ">>=", "|", "||", "->", "-", "$", "@", "~", "?", ".", "..",
];

/// Parts of format strings, some of which have escapes.
#[rustfmt::skip]
const HOLES: &[&str] = &[
    "{}", "{}", "{}", "{0}", "{1}", "{2}", "{9}", "{a}", "{b}", "{c}", "{x}", "{:?}", "{:q}", "{:1$}", "{:.2$}",
    "{:.*}", "{:a$}", "{:.b$}", "{1:w$}", "{a:>0$.*}", "{:4$.x$}", "{:#x?}", "{x.y}", "{a.0.b}", "{&a}", "{r#a}",
    "\r", "\\\"", "{a} and a text of more than sixteen bytes", "{a?}", "{a:?#}", "{self}", "{f()}", "{a b}", "{a", "}", "{:-}", "{_}", "{0:a$}", "%d", "%5$s", "$x", "%%",
    " ", "é", "日", "\\n", "\\x41", "\\u{7b}", "{\\u{61}}", "{\\x30}", "\\\n   ", "\n", "\t", "{{", "}}",
];
/// Arguments of calls.
#[rustfmt::skip]
const ARGUMENTS: &[&str] = &[
    "a", "b", "x", "1", "r#a", "r#type", "a = 1", "b = x", "r#c = y", "w = 3", "v = v", "f(x, y)", "&a", "\"%s\"", "a.b", "",
    "\n    a", "/* , */ b", "z as A<B, C>", "{ a; b }", "self", "c", "a == b", "$x", "é = 1", "日",
];

/// A call of a macro with a format string.
fn call(random: &mut Random) -> String {
    let front = ["format!(", "println!(", "write!(w, ", "panic!(", "assert!(a, ", "print! (\r\n ", "say!(a,"];
    let (front, is_raw) = (random.of(&front), random.one_in(5));
    let holes: String = (0..random.below(6)).map(|_| random.of(HOLES)).collect();
    let quotes = if is_raw { ["r#\"", "\"#"] } else { ["\""; 2] };
    let arguments = (0..random.below(6)).map(|_| random.of(ARGUMENTS));
    let arguments: String = arguments.map(|it| format!(", {it}")).collect();
    format!("{front}{}{holes}{}{arguments});\n", quotes[0], quotes[1])
}

/// A module for a build of the crate: what can be seen of a file, in lines.
macro_rules! seen_by {
    ($name:ident, $of:ident) => {
        mod $name {
            use $of::source::*;

            /// The content of a literal, if it has no escape, and its hashes if it is raw.
            fn content(literal: &str) -> Option<(&str, Option<usize>)> {
                let bare = literal.trim_start_matches('r').trim_matches('#');
                let text = bare.strip_prefix('"')?.strip_suffix('"')?;
                let hashes = literal.find('"')?.checked_sub(1);
                (!text.contains('\\')).then_some((text, hashes))
            }

            fn faults(call: &Call<'_>) -> Vec<String> {
                let Some((text, style)) = call.literal().and_then(content) else {
                    return Vec::new();
                };
                let mut given: Vec<FormatArgument> = call.format_arguments().iter().map(|it| it.format_argument).collect();
                // (a call gives no variable of an argument with a name, and others may)
                for it in given.iter_mut().filter(|it| it.name.is_some()) {
                    it.variable = Some("x");
                }
                let string = FormatString {
                    text,
                    style,
                    snippet: call.literal(),
                    appended_newline: false,
                    captures_variables: !text.contains("{x}"),
                };
                let checked = call_faults(string, &given);
                let mut lines = Vec::new();
                for it in checked.faults() {
                    lines.push(format!("  {} {} {it:?}", it.id(), checked.title(it)));
                }
                lines.push(format!("  {:?} {:?}", checked.pieces(), checked.arg_places()));
                lines
            }

            fn call(call: &Call<'_>) -> Vec<String> {
                let mut lines = vec![format!("{} {:?} {:?}", call.name, call.span, call.string)];
                for it in &call.arguments {
                    let FormatArgument { name, variable } = it.format_argument;
                    let (text, span, value) = (it.text, &it.span, &it.value);
                    lines.push(format!(" {name:?} {variable:?} {text:?} {span:?} {value:?}"));
                }
                [lines, faults(call)].concat()
            }

            pub fn seen(file: &str, is_from_2021: bool) -> Vec<String> {
                let places = Places::new(file);
                let mut lines = Vec::new();
                for token in tokens(file) {
                    let place = places.place_of(token.span.start);
                    lines.push(format!("{} {} {token:?}", place.line, place.column));
                }
                lines.push(format!("{:?}", first_break(file)));
                let mut table = Table::with_crate_macros();
                Table::standard().rows().iter().for_each(|row| table.add(*row));
                table.add(Row { name: "say", rule: Rule::Index(1) });
                lines.extend(calls(file, &table, is_from_2021).iter().flat_map(call));
                let report = file_faults(file, &table, is_from_2021);
                lines.extend(report.calls.iter().map(|it| format!("{it:?}")));
                lines.extend(report.findings.iter().map(|it| format!("{it:?}")));
                lines.push(format!("{:?}", report.first_break));
                lines
            }
        }
    };
}

seen_by!(ours, dephungo);
seen_by!(theirs, original);

fn main() {
    let word = |at| std::env::args().nth(at).and_then(|word| word.parse().ok());
    let (seed, count) = (word(1).expect("a seed"), word(2).expect("a count"));
    let mut random = Random::new(seed as u64);
    let mut lines = 0;
    for _ in 0..count {
        let parts = (0..random.below(14)).map(|_| match random.one_in(4) {
            true => call(&mut random),
            false => random.of(PARTS).to_string(),
        });
        let mut file: String = parts.collect();
        if random.one_in(100) {
            let [holes, arguments] = [0; 2].map(|_| random.below(100));
            file += &format!("print!(\"{}\"{})", "{}".repeat(holes), ", a".repeat(arguments));
        }
        let is_from_2021 = !random.one_in(3);
        let seen = ours::seen(&file, is_from_2021);
        assert_eq!(seen, theirs::seen(&file, is_from_2021), "{file:?}");
        lines += seen.len();
    }
    println!("seed {seed}: {count} files, {lines} lines: all agree");
}
