//! Peeks of one kind by the crate of bindings/rust, to count their instructions: peeks KIND COUNT
//! makes COUNT walks with 8 calls of `peek` and 8 of `peek_ahead` before each of `next`, and writes
//! the number of their characters. The text of a kind is one long piece before a placeholder: a
//! peek that reads that piece again takes more than the walk. Without words the program writes the
//! names of the kinds.
use dephungo::{ParseMode, Parser};
use std::hint::black_box;

/// For each kind a part of a text, how many times it is repeated, and how the part is written if the
/// text has a literal. That of `raw` is a raw one.
const KINDS: &[(&str, &str, usize, Option<&str>)] = &[
    ("text", "a", 4096, None),
    ("lines", "a line\n", 512, Some("a line\\n")),
    ("escapes", "a", 4096, Some("\\x61")),
    ("unicode", "é", 2048, Some("\\u{e9}")),
    ("continued", "words ", 512, Some("words \\\n    ")),
    ("raw", "a line\n", 512, Some("a line\n")),
];

fn main() {
    let mut words = std::env::args().skip(1);
    let Some(kind) = words.next() else {
        return KINDS.iter().for_each(|it| println!("{}", it.0));
    };
    let count: usize = words.next().and_then(|it| it.parse().ok()).expect("a count");
    let (_, part, times, written) = KINDS.iter().find(|it| it.0 == kind).expect("a kind");
    let (style, start) = if kind == "raw" { (Some(0), "r") } else { (None, "") };
    let text = part.repeat(*times) + "{}";
    let literal = written.map(|it| format!("{start}\"{}{{}}\"", it.repeat(*times)));
    let mut peeked = 0;
    for _ in 0..count {
        let mut parser =
            Parser::new(black_box(&text), style, literal.clone(), false, ParseMode::Format);
        loop {
            for _ in 0..8 {
                peeked += usize::from(black_box(parser.peek()).is_some());
                peeked += usize::from(black_box(parser.peek_ahead()).is_some());
            }
            if black_box(parser.next()).is_none() {
                break;
            }
        }
    }
    println!("{peeked}");
}
