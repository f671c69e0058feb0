//! Walks of one kind by the crate of bindings/rust, to count their instructions: walks KIND COUNT
//! [STRINGS] makes COUNT walks, each from a new parser to the first `None`, and writes a number: of
//! all pieces, errors, `arg_places` and characters from `peek`. The instructions of COUNT walks are
//! those of a run with twice the COUNT, less those of a run with COUNT.
//!
//! KIND is a name of the table below. It can also be `strings` or `literals`: all texts of the file
//! STRINGS, which is as cost.rs reads it, without or with their literals. Without words the program
//! writes the names of the table.
mod cases;

use dephungo::{ParseMode, Parser};
use std::hint::black_box;

/// For each kind a part of an input, how many times it is repeated, and how the part is written if
/// the input has a literal.
#[rustfmt::skip]
const KINDS: &[(&str, &str, usize, Option<&str>)] = &[
    ("empty", "", 1, None), ("text", "When the parser is asked, it answers.", 1, None),
    ("long-text", "a", 1 << 16, None), ("wide-text", "größe 大小 🦀! ", 64, None),
    ("doubled-braces", "{{}}", 1, None), ("many-doubled-braces", "{{}}", 64, None),
    ("implicit", "{}", 1, None), ("many-implicits", "{}", 64, None),
    ("name", "{name} ", 1, None), ("many-names", "{name} ", 64, None),
    ("wide-names", "{größe} ", 64, None), ("peek", "hi {name}{}", 1, None),
    ("mixed", "hi {name}{}", 1, None), ("raw-names", "{r#name} ", 64, None),
    ("spec", "{name:>8.3} ", 1, None), ("many-specs", "{name:>8.3} ", 64, None),
    ("debug", "{:?}", 64, None), ("whole-specs", "{:*^+#08.prec$x?} ", 64, None),
    ("params", "{:w$.p$}", 1, None), ("many-params", "{:w$.p$}", 64, None),
    ("plain-literal", "no escape at all {} ", 8, Some("no escape at all {} ")),
    ("literal", "{name}\n", 1, Some("{name}\\n")),
    ("many-lines", "a line {}\n", 64, Some("a line {}\\n")),
    ("continued-lines", "words {}", 64, Some("words {}\\\n    ")),
    ("escapes", "{:?}\té", 64, Some("{:?}\\t\\u{e9}")),
    ("switched", "{:?}\té", 64, Some("{:?}\\t\\u{e9}")),
    ("lone-brace", "}", 1, None), ("faults", "{_} ", 64, None),
    ("front-faults", "{a.b} ", 64, None),
];

/// What is counted of a walk. In a walk of the kind `peek` or `switched` there is a `peek` before
/// each call, and in one of `switched` the field `is_source_literal` is set to `false`.
fn walk((text, literal): &(String, Option<String>), kind: &str) -> usize {
    let mut parser = Parser::new(text, None, literal.clone(), false, ParseMode::Format);
    let peeks = matches!(kind, "peek" | "switched");
    parser.is_source_literal &= kind != "switched";
    let (mut pieces, mut peeked) = (0, 0);
    loop {
        if peeks {
            peeked += usize::from(black_box(parser.peek()).is_some());
        }
        if black_box(parser.next()).is_none() {
            return pieces + peeked + parser.errors.len() + parser.arg_places.len();
        }
        pieces += 1;
    }
}

/// The inputs of a kind.
fn inputs(kind: &str, file: Option<String>) -> Vec<(String, Option<String>)> {
    if let Some((_, part, times, written)) = KINDS.iter().find(|it| it.0 == kind) {
        let literal = written.map(|it| format!("\"{}\"", it.repeat(*times)));
        return vec![(part.repeat(*times), literal)];
    }
    let with_literals = match kind {
        "strings" => false,
        "literals" => true,
        other => panic!("there is no kind {other}"),
    };
    let all = cases::strings(&file.expect("a file of strings"));
    all.into_iter().map(|(text, it)| (text, with_literals.then_some(it))).collect()
}

fn main() {
    let mut words = std::env::args().skip(1);
    let Some(kind) = words.next() else {
        return KINDS.iter().for_each(|it| println!("{}", it.0));
    };
    let count: usize = words.next().and_then(|it| it.parse().ok()).expect("a count");
    let inputs = inputs(&kind, words.next());
    let walks = (0..count).flat_map(|_| &inputs);
    println!("{}", walks.map(|it| walk(black_box(it), &kind)).sum::<usize>());
}
