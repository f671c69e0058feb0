//! Random literals, over the crate of bindings/rust and over the proved program formatlint: lint
//! PROGRAM SEED COUNT. The output of the program, without an option, with `--all` and with `--fix`,
//! is that of the crate for the literal.
mod cases;
use cases::{quoted, Random};
use dephungo::faults::{draw, error_of, faults_of, fix, Fault, Picture};
use dephungo::{ParseMode, Parser};
use std::io::Write;
use std::process::{Command, Stdio};

const MODES: [(&str, ParseMode); 4] = [
    ("format", ParseMode::Format),
    ("asm", ParseMode::InlineAsm),
    ("diagnostic", ParseMode::Diagnostic),
    ("diagnostic-named", ParseMode::DiagnosticNamed),
];

/// Places of faults, and what is around them.
#[rustfmt::skip]
const PARTS: &[&str] = &[
    "{r#a}", "{a?}", "{:?#}", "{a!}", "{a.b}", "{a\n.b}", "{", "}", "{_}", "{a:5\n}", "日", "\t",
    "\n", "\n\n\n\n", " a ", "\u{202e}", "\u{7}", "e\u{301}", "                              ",
    "{{", "{:.65536}",
];

/// A literal, its text and its style.
fn literal(random: &mut Random) -> (String, String, Option<usize>) {
    let text: String = (0..random.below(9)).map(|_| random.of(PARTS)).collect();
    let style = random.one_in(3).then(|| random.below(2));
    let mut written = |c: char| match random.below(9) {
        0 => format!("\\u{{{:x}}}", c as u32),
        1 if !c.is_whitespace() => format!("\\\n  {c}"),
        _ => c.to_string(),
    };
    let content = match style {
        Some(_) => text.clone(),
        None => text.chars().map(&mut written).collect(),
    };
    (quoted(style, &content), text, style)
}

/// The faults of each call of a parser, in the order of its errors.
fn calls<'t>(
    snippet: &str,
    text: &'t str,
    style: Option<usize>,
    mode: ParseMode,
) -> Vec<Vec<Fault<'t>>> {
    let snippet = || Some(snippet.to_string());
    let mut faults = faults_of(text, style, snippet(), false, mode).into_iter();
    let mut parser = Parser::new(text, style, snippet(), false, mode);
    let mut calls = vec![];
    while parser.peek().is_some() {
        parser.next();
        let mut call = vec![];
        for fault in faults.by_ref().take(parser.errors.len()) {
            call.insert(if fault.is_front() { 0 } else { call.len() }, fault);
        }
        parser.errors.clear();
        calls.push(call);
    }
    calls
}

/// The output of the program about a literal's faults: the first of the first call that has one, or
/// all with their ids and whether they follow from an earlier one.
fn drawings(
    snippet: &str,
    text: &str,
    style: Option<usize>,
    mode: ParseMode,
    all: bool,
) -> String {
    let picture = Picture {
        path: "<stdin>",
        source: snippet,
        line_start: 1,
        literal_start: 0,
        width: 140,
        colours: false,
    };
    let calls = calls(snippet, text, style, mode);
    if !all {
        let first = calls.iter().flatten().next();
        return first.map_or(String::new(), |it| draw(mode, &picture, &error_of(it)));
    }
    let (mut drawings, mut waits) = (vec![], false);
    for call in &calls {
        for (at, fault) in call.iter().enumerate() {
            let is_lone = matches!(fault, Fault::UnmatchedBrace(_));
            let word = if at > 0 || waits && is_lone { "follows" } else { "fault" };
            let drawn = draw(mode, &picture, &error_of(fault));
            drawings.push(format!("{word}: {}\n{drawn}", fault.id()));
            waits &= !is_lone;
            waits |= matches!(fault, Fault::MissingBrace(..) | Fault::FillBrace(..));
        }
    }
    let mut out: String = drawings.iter().take(10).map(String::as_str).collect();
    if drawings.len() > 10 {
        out += &format!("and {} more\n", drawings.len() - 10);
    }
    out
}

/// The standard output of the program, and its standard error but for the last line on how many
/// others there are.
fn said(program: &str, words: &[&str], input: &str) -> (String, String) {
    let mut command = Command::new(program);
    command.arg("--literal").args(words).stdin(Stdio::piped());
    let command = command.stdout(Stdio::piped()).stderr(Stdio::piped());
    let mut child = command.spawn().expect("the program");
    child.stdin.take().unwrap().write_all(input.as_bytes()).unwrap();
    let ended = child.wait_with_output().unwrap();
    let mut errors = String::from_utf8(ended.stderr).unwrap();
    if let Some(at) = errors.find("formatlint: and ").filter(|_| errors.ends_with("--all draws\n")) {
        errors.truncate(at);
    }
    (String::from_utf8(ended.stdout).unwrap(), errors)
}

fn main() {
    let words: Vec<String> = std::env::args().skip(1).collect();
    let [program, seed, count] = &words[..] else { panic!("lint PROGRAM SEED COUNT") };
    let mut random = Random::new(seed.parse().expect("a seed"));
    let count: usize = count.parse().expect("a count");
    let (mut faulty, mut fixed) = (0, 0);
    for _ in 0..count {
        let (snippet, text, style) = literal(&mut random);
        let (name, mode) = MODES[random.below(6) % 4];
        let drawn = drawings(&snippet, &text, style, mode, false);
        let none = String::new();
        let wanted = (drawn.clone(), none.clone());
        assert_eq!(said(program, &["--mode", name], &snippet), wanted, "{snippet:?}");
        let listed = drawings(&snippet, &text, style, mode, true);
        let wanted = (listed, none);
        assert_eq!(said(program, &["--mode", name, "--all"], &snippet), wanted, "{snippet:?}");
        faulty += usize::from(!drawn.is_empty());
        let mended = fix(&text, style, &snippet, false, mode).map(|it| (it.snippet, it.text));
        let (kept, text) = mended.unwrap_or_else(|| (snippet.clone(), text));
        fixed += usize::from(kept != snippet);
        let wanted = (format!("{kept}\n"), drawings(&kept, &text, style, mode, false));
        assert_eq!(said(program, &["--mode", name, "--fix"], &snippet), wanted, "{snippet:?}");
    }
    println!("{count} literals, {faulty} with faults, {fixed} fixed: all agree");
}
