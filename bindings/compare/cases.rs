//! Random cases: an input, how it is read, and a snippet that is its source literal or is not. And
//! the strings of a file, with their literals.
#![allow(dead_code)]

/// Random numbers, the same for the same seed.
pub struct Random(u64);

impl Random {
    pub fn new(seed: u64) -> Self {
        Random(seed.wrapping_mul(0x9e37_79b9_7f4a_7c15) | 1)
    }

    /// A number below `n`.
    pub fn below(&mut self, n: usize) -> usize {
        self.0 ^= self.0 << 13;
        self.0 ^= self.0 >> 7;
        self.0 ^= self.0 << 17;
        ((self.0 >> 11) % n as u64) as usize
    }

    pub fn one_in(&mut self, n: usize) -> bool {
        self.below(n) == 0
    }

    pub fn of<'a, T: ?Sized>(&mut self, all: &[&'a T]) -> &'a T {
        all[self.below(all.len())]
    }
}

#[derive(Debug)]
pub struct Case {
    pub input: String,
    pub style: Option<usize>,
    pub snippet: Option<String>,
    pub newline: bool,
    pub mode: usize,
}

/// Parts of inputs.
#[rustfmt::skip]
const PARTS: &[&str] = &[
    "{", "}", "{{", "}}", "{", "}", "{}", "a", "name", "_", "r#", "r#r#", "r", "é", "€", "😀",
    "e\u{301}", "\u{200d}", "\u{2028}", "\u{a0}", " ", "  ", "\n", "\n  ", "\t", "\r", "\r\n",
    "\0", "\"", "\\", "'", "0", "12", "65535", "65536", "99999999999", ":", "$", ".", ".*", "*",
    "#", "<", ">", "^", "+", "-", "=", ",", "?", "x", "X", "x?", "X?", "?#", "?x", "w$", ".p$",
    "0$", "1$", "{x}", "{0}", "{:>8.3}", "{n:w$.p$x?}", "{a.b}", "{a.0}", "{a.b:?}", "{a?}",
    "{a?:b}", "{a<}", "{a,}", "{a=}", "{a+}", "{:?#}", "{:x?#}", "{:}>}", "{:}<", "}>", "{ }",
    "{a:x}", "{a:b c}", "{a }", "%", "{:{}>", "text of some words", "{a.b.c}", "{{{}}}",
    "\n                              ", "\n\n",
];

/// Snippets that are hardly ever the source literal of an input.
#[rustfmt::skip]
const FOREIGN: &[&str] = &[
    "", "\"", "r", "r\"", "r\"\"", "\"\"", "x", "\"é", "concat!(\"a\")", "r#\"\"#", "é",
];

/// How a unit of a literal is written, and what it stands for or might be taken for.
#[rustfmt::skip]
const UNITS: &[(&str, &str)] = &[
    ("a", "a"), ("é", "é"), ("{", "{"), ("}", "}"), ("{}", "{}"), ("\n", "\n"), ("\r", "\r"),
    ("\r\n", "\r\n"), ("\r\n", "\n"), ("\"", "\""), ("\\", "\\"), ("\\n", "\n"), ("\\r", "\r"),
    ("\\t", "\t"), ("\\0", "\0"), ("\\'", "'"), ("\\\"", "\""), ("\\\\", "\\"), ("\\q", "q"),
    ("\\N", "\n"), ("\\x41", "A"), ("\\x62", "1"), ("\\x31", "b"), ("\\x7f", "\u{7f}"),
    ("\\x7F", "\u{7f}"), ("\\x80", "\u{80}"), ("\\x81", "\u{81}"), ("\\x90", "\u{90}"),
    ("\\xff", "ÿ"), ("\\x4", "\u{4}"), ("\\xg1", "g1"), ("\\x4g", "4g"), ("\\X41", "A"),
    ("\\x4A", "J"), ("\\x4a", "J"), ("\\x4A", "j"), ("\\x4_1", "A"), ("\\u{41}", "A"),
    ("\\u{4_1}", "A"), ("\\u{_41}", "A"), ("\\u{41_}", "A"), ("\\u{000041}", "A"),
    ("\\u{0000041}", "A"), ("\\u{}", "\0"), ("\\u{_}", "\0"), ("\\u{d800}", " "),
    ("\\u{d800}", "\u{fffd}"), ("\\u{dfff}", "\u{fffd}"), ("\\u{e000}", "\u{e000}"),
    ("\\u{10ffff}", "\u{10ffff}"), ("\\u{110000}", "\u{fffd}"), ("\\u{1F600}", "😀"),
    ("\\u{g}", "g"), ("\\u41", "A"), ("\\u{41", "A"), ("\\u 41}", "A"), ("\\\n  ", ""),
    ("\\\n\t \n \r ", ""), ("\\\n\u{a0}", "\u{a0}"), ("\\\n\u{c}", "\u{c}"), ("\\\r\n ", ""),
    ("\\\r ", ""), ("\\ ", " "), ("", ""), ("a", ""), ("\\x41", ""), ("\\u{41}", ""), ("\\n", ""),
    ("{x}", "{x}"),
    ("sixteen bytes {} of text", "sixteen bytes {} of text"), ("{\\n}", "{\n}"),
    ("{\\x7d", "{}"), ("{\\x7d\\x7d", "{}}"), ("{a\t}", "{a\t}"), ("{a:\t", "{a:\t"),
    ("\n \t b \u{a0} c", "\n \t b \u{a0} c"),
];

/// The content of a literal that stands for a text: each character as it is or by an escape, with
/// continued lines in between.
fn content(random: &mut Random, text: &str, plain: bool) -> String {
    let mut out = String::new();
    for c in text.chars() {
        if !plain && random.one_in(12) {
            out.push_str("\\\n");
            out.push_str(random.of(&["", "  ", "\t ", " \r", "\n", " \n \n", "\u{a0}"]));
        }
        let choice = if plain { 0 } else { random.below(5) };
        match c {
            '"' | '\\' if choice < 3 => out.extend(['\\', c]),
            '\r' if choice < 3 => out.push_str("\\r"),
            '\n' if choice == 1 => out.push_str("\\n"),
            '\t' if choice == 1 => out.push_str("\\t"),
            '\0' if choice == 1 => out.push_str("\\0"),
            c if choice == 3 && c.is_ascii() => out.push_str(&format!("\\x{:02x}", c as u32)),
            c if choice >= 3 => out.push_str(&format!("\\u{{{:x}}}", c as u32)),
            c => out.push(c),
        }
    }
    if !plain && random.one_in(12) {
        out.push_str("\\\n   ");
    }
    out
}

/// Something done to a snippet, so that it mostly is no source literal any more.
fn spoilt(random: &mut Random, mut snippet: String) -> String {
    let is_boundary = |&at: &usize| snippet.is_char_boundary(at);
    let places: Vec<usize> = (0..=snippet.len()).filter(is_boundary).collect();
    let at = places[random.below(places.len())];
    match random.below(6) {
        0 => snippet.truncate(at),
        1 => snippet.insert_str(at, random.of(PARTS)),
        2 => drop(snippet.drain(..at)),
        3 => snippet = random.of(FOREIGN).to_string(),
        4 => snippet.push_str(random.of(&["\"", "#", "u8", " ", "é"])),
        _ => drop(snippet.pop()),
    }
    snippet
}

/// A literal of a style around a content.
pub fn quoted(style: Option<usize>, content: &str) -> String {
    let hashes = "#".repeat(style.unwrap_or(0));
    format!("{}{hashes}\"{content}\"{hashes}", if style.is_some() { "r" } else { "" })
}

/// An input of random parts, in one of so many modes, mostly with a snippet.
pub fn case(random: &mut Random, modes: usize) -> Case {
    let parts = match random.below(20_000) {
        0 => 1000 + random.below(2000),
        1..=500 => random.below(60),
        _ => random.below(10),
    };
    let mut input: String = (0..parts).map(|_| random.of(PARTS)).collect();
    if random.one_in(400) {
        // (many alike: lines, faults, edits, implicit arguments)
        let times = if random.one_in(10) { 1200 } else { 8 + random.below(100) };
        input = random.of(PARTS).repeat(times);
    }
    if random.one_in(6) {
        input.push('\n');
    }
    let newline = random.one_in(if input.ends_with('\n') { 2 } else { 40 });
    let style = random.one_in(3).then(|| random.below(4));
    let line = if newline { input.strip_suffix('\n') } else { None };
    let written = line.unwrap_or(&input);
    let snippet = (!random.one_in(4)).then(|| {
        let is_plain = random.one_in(3);
        let snippet = match style {
            Some(_) => quoted(style, written),
            None => quoted(style, &content(random, written, is_plain)),
        };
        if random.one_in(6) { spoilt(random, snippet) } else { snippet }
    });
    Case { input, style, snippet, newline, mode: random.below(modes + 2).saturating_sub(2) }
}

/// A literal with right and wrong escapes, and an input that it stands for or might be taken for.
pub fn literal(random: &mut Random) -> Case {
    let units: Vec<_> = (0..random.below(6)).map(|_| UNITS[random.below(UNITS.len())]).collect();
    let (content, mut input): (String, String) = units.into_iter().unzip();
    let style = random.one_in(5).then(|| random.below(3));
    let newline = random.one_in(4);
    if newline && !random.one_in(8) {
        input += "\n";
    }
    Case { input, style, snippet: Some(quoted(style, &content)), newline, mode: 0 }
}

/// Compares what the functions of `literal` say of a case with what a parser shows of it.
pub fn same_as_its_literal(case: &Case) {
    use dephungo::literal::{quoted_content, is_source_literal, read_content, Literal};
    let Some(snippet) = &case.snippet else { return };
    let format = dephungo::ParseMode::Format;
    // (a literal is read in runs of characters)
    let ordinary = Literal::new(snippet, format).filter(|it| it.style.is_none());
    let units = quoted_content(snippet).and_then(read_content);
    let text = units.map(|it| it.iter().map(|it| it.character).collect::<String>());
    assert_eq!(ordinary.map(|it| it.text), text, "Literal::new of {case:?}");
    let snippet_too = Some(snippet.clone());
    let mut parser =
        dephungo::Parser::new(&case.input, case.style, snippet_too, case.newline, format);
    let is_literal = is_source_literal(&case.input, case.style, snippet, case.newline);
    assert_eq!(is_literal, parser.is_source_literal, "is_source_literal of {case:?}");
    if !is_literal || case.style.is_some() {
        return;
    }
    let content = quoted_content(snippet).expect("a content between quotes");
    let found = read_content(content).expect("the content of a literal");
    let text: String = found.iter().map(|it| it.character).collect();
    assert_eq!(text + if case.newline { "\n" } else { "" }, case.input, "read_content of {case:?}");
    while let Some((place, at, c)) = parser.peek() {
        if let Some(wanted) = found.get(case.input[..at].chars().count()) {
            let span = wanted.span.start + 1..wanted.span.end + 1;
            assert_eq!((place, c), (span, wanted.character), "{at} of {case:?}");
        }
        parser.next();
    }
}

/// A column of a file: with \n, \t, \r and \\ for what they stand for.
fn column(text: &str) -> String {
    let (mut out, mut chars) = (String::new(), text.chars());
    while let Some(c) = chars.next() {
        out.push(match if c == '\\' { chars.next() } else { None } {
            None => c,
            Some('n') => '\n',
            Some('t') => '\t',
            Some('r') => '\r',
            Some(other) => other,
        });
    }
    out
}

/// The strings of a file, each with its literal: on a line, with a tab between them.
pub fn strings(file: &str) -> Vec<(String, String)> {
    let text = std::fs::read_to_string(file).expect("a file of strings");
    let pairs = text.lines().filter_map(|line| line.split_once('\t'));
    pairs.map(|(text, literal)| (column(text), column(literal))).collect()
}
