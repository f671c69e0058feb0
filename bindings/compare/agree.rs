//! The crate of bindings/rust beside a build of the original, or of the crate itself: agree SEED
//! COUNT. With `--cfg applied` the other has the differences of docs/DIFFERENCES.md and the fourth
//! mode; then nothing is left out, and as many literals with right and wrong escapes are compared.
//! With `--cfg itself` besides, it is a build of the crate, and tokens, fixes and drawings are
//! compared too.
mod cases;
#[macro_use]
mod seen;

use cases::{case, literal, same_as_its_literal, Case, Random};
use std::collections::BTreeMap;
use std::panic::catch_unwind;

seen_by!(ours, dephungo);
seen_by!(theirs, original);

/// By which named difference a case is left out, before it is tried.
fn left_out(case: &Case) -> Option<&'static str> {
    if cfg!(applied) {
        return None;
    }
    match (&case.snippet, case.style) {
        (Some(s), None) if s.starts_with('"') && (s.len() < 2 || !s.ends_with('"')) => {
            Some("an ordinary snippet whose closing quote is cut off without a look")
        }
        (Some(_), Some(_)) if case.newline && !case.input.ends_with('\n') => {
            Some("a raw literal whose appended newline is cut off without a look")
        }
        (None, _) if case.newline && case.input.is_empty() => {
            Some("an empty input with an appended newline and no snippet")
        }
        _ => None,
    }
}

/// Whether the unescaper warns of a continued line: of more than one line, or of white space that
/// it leaves.
fn warns(snippet: &str) -> bool {
    let mut rest = snippet;
    while let Some(at) = rest.find('\\') {
        let after = &rest[at + 1..];
        if let Some(continued) = after.strip_prefix('\n') {
            let left = continued.trim_start_matches([' ', '\t', '\n', '\r']);
            let skipped = &continued[..continued.len() - left.len()];
            if skipped.contains('\n') || left.starts_with(char::is_whitespace) {
                return true;
            }
        }
        rest = after.get(1..).unwrap_or(after.trim_start_matches(|_| true));
    }
    false
}

/// Whether two descriptions say the same, but for a character beyond ASCII that one of them
/// escapes.
fn differ_by_an_escape(ours: &str, theirs: &str) -> bool {
    let found = ours.strip_prefix("expected `}`, found `").and_then(|it| it.chars().next());
    let wide = found.filter(|c| !c.is_ascii());
    wide.is_some_and(|c| theirs == format!("expected `}}`, found `{}`", c.escape_debug()))
}

/// Texts that the original escapes.
const ESCAPED: &str = "(compared but for one text) a message that escapes a character beyond ASCII";

#[derive(Default)]
struct Counts {
    compared: usize,
    calls: usize,
    literals: usize,
    faulty: usize,
    panics: usize,
    by_name: BTreeMap<&'static str, usize>,
}

impl Counts {
    fn add(&mut self, name: &'static str) {
        *self.by_name.entry(name).or_default() += 1;
    }
}

/// Compares all that can be seen of two parsers.
fn same_state(
    case: &Case,
    a: &dephungo::Parser<'_>,
    b: &original::Parser<'_>,
    counts: &mut Counts,
) {
    assert_eq!(a.peek(), b.peek(), "peek of {case:?}");
    assert_eq!(a.peek_ahead(), b.peek_ahead(), "peek_ahead of {case:?}");
    assert_eq!(a.curarg, b.curarg, "curarg of {case:?}");
    assert_eq!(a.is_source_literal, b.is_source_literal, "is_source_literal of {case:?}");
    assert_eq!(a.arg_places, b.arg_places, "arg_places of {case:?}");
    assert_eq!(a.line_spans, b.line_spans, "line_spans of {case:?}");
    assert_eq!(a.errors.len(), b.errors.len(), "errors of {case:?}");
    for (x, y) in a.errors.iter().zip(&b.errors) {
        let (x, mut y) = (ours::error(x), theirs::error(y));
        if !cfg!(applied) && x.0 != y.0 && differ_by_an_escape(x.0, y.0) {
            counts.add(ESCAPED);
            y.0 = x.0;
        }
        assert_eq!(x, y, "error of {case:?}");
    }
}

/// Both parsers side by side, up to two calls after the end, with fields written in between.
fn compare(case: &Case, random: &mut Random, counts: &mut Counts) {
    if let Some(name) = left_out(case) {
        return counts.add(name);
    }
    if catch_unwind(|| theirs::parser(case).count()).is_err() {
        println!("the original panics over {case:?}");
        counts.panics += 1;
        return;
    }
    let (mut a, mut b) = (ours::parser(case), theirs::parser(case));
    if !cfg!(applied)
        && a.is_source_literal
        && !b.is_source_literal
        && case.style.is_none()
        && warns(case.snippet.as_deref().unwrap_or(""))
    {
        return counts.add("a literal that a warning of the unescaper makes foreign");
    }
    same_as_its_literal(case);
    counts.compared += 1;
    counts.literals += usize::from(a.is_source_literal);
    let mut after = 0;
    while after < 3 {
        same_state(case, &a, &b, counts);
        match random.below(24) {
            0 => (a.curarg, b.curarg) = (7, 7),
            1 => (a.curarg, b.curarg) = (usize::MAX / 2, usize::MAX / 2),
            2 => (a.errors, b.errors) = (vec![], vec![]),
            3 => drop((a.errors.pop(), b.errors.pop())),
            4 => drop((a.line_spans.pop(), b.line_spans.pop())),
            5 => (a.arg_places, b.arg_places) = (vec![3..4], vec![3..4]),
            7 if a.line_spans.len() < 9 => {
                a.line_spans.extend_from_within(..);
                b.line_spans.extend_from_within(..)
            }
            6 if random.one_in(8) => {
                let set = random.one_in(2);
                (a.is_source_literal, b.is_source_literal) = (set, set)
            }
            _ => {}
        }
        after += usize::from(b.peek().is_none());
        let (x, y) = (a.next(), b.next());
        counts.calls += 1;
        assert_eq!(format!("{x:?}"), format!("{y:?}"), "piece of {case:?}");
        assert_eq!(ours::answers(&x), theirs::answers(&y), "what is asked of a piece of {case:?}");
        let places = [ours::places(&case.input, &x), theirs::places(&case.input, &y)];
        assert_eq!(places[0], places[1], "places of the texts of {case:?}");
    }
    same_state(case, &a, &b, counts);
    counts.faulty += usize::from(!a.errors.is_empty());
    #[cfg(itself)]
    same_made(case, random);
}

/// Compares what both crates make of a case, and of its errors at random places.
#[cfg(itself)]
fn same_made(case: &Case, random: &mut Random) {
    let length = case.snippet.as_ref().unwrap_or(&case.input).len();
    let places = [0; 4].map(|_| random.below(length + 2));
    assert_eq!(ours::made(case, places), theirs::made(case, places), "what is made of {case:?}");
}

fn main() {
    let word = |at| std::env::args().nth(at).and_then(|word| word.parse().ok());
    let (seed, count) = (word(1).expect("a seed"), word(2).expect("a count"));
    let mut random = Random::new(seed);
    let mut counts = Counts::default();
    for _ in 0..count {
        compare(&case(&mut random, if cfg!(applied) { 4 } else { 3 }), &mut random, &mut counts);
        if cfg!(applied) {
            compare(&literal(&mut random), &mut random, &mut counts);
        }
    }
    let Counts { compared, calls, literals, faulty, panics, by_name } = counts;
    println!("seed {seed}: {count} inputs, {compared} compared, all agree: {calls} calls");
    println!("  {literals} of them from their source literal, {faulty} with faults in the end");
    for (name, n) in &by_name {
        println!("  {n} {}{name}", if name.starts_with('(') { "" } else { "left out: " });
    }
    if panics > 0 {
        println!("  {panics} left out where the original panics and no difference says so");
        std::process::exit(1);
    }
}
