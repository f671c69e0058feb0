//! Times in one run, over the same inputs: cost STRINGS, a file with a string and its literal on a
//! line, with a tab between them. A line of its output is a row's name, with a tab after it and
//! after each time in microseconds: of the crate of bindings/rust, of the original, and with
//! `--cfg library` of the library's own walk and of the export into buffers that are kept. With
//! `--cfg growth` there are only walks of the library, over kinds of input at growing sizes.
#![allow(dead_code)]
mod cases;
#[cfg(library)]
mod library;

use std::hint::black_box;
use std::time::Instant;

#[cfg(library)]
use export::{buffers, Buffers};
/// Only the export has buffers.
#[cfg(not(library))]
type Buffers = ();
#[cfg(not(library))]
fn buffers() -> Buffers {}

/// How many pieces and how many errors there are up to the first None.
type Counts = (usize, usize);
/// A walk over a text, perhaps with its literal, and the buffers of the export.
type Walk = fn(&str, Option<&str>, &mut Buffers) -> Counts;
/// A text, perhaps with its literal.
type Input = (String, Option<String>);

macro_rules! walk {
    ($name:ident, $of:ident) => {
        fn $name(input: &str, snippet: Option<&str>, _: &mut Buffers) -> Counts {
            let snippet = snippet.map(str::to_string);
            let mut parser = $of::Parser::new(input, None, snippet, false, $of::ParseMode::Format);
            let pieces = parser.by_ref().map(black_box).count();
            (pieces, parser.errors.len())
        }
    };
}
walk!(the_crate, dephungo);
#[cfg(not(growth))]
walk!(the_original, original);

/// The library's own walk.
#[cfg(any(library, growth))]
fn the_library(input: &str, snippet: Option<&str>, _: &mut Buffers) -> Counts {
    unsafe extern "C" {
        fn counted_walk(
            input: *const u8,
            input_length: usize,
            snippet: *const u8,
            snippet_length: usize,
            has_snippet: bool,
        ) -> usize;
    }
    let (is_given, text) = (snippet.is_some(), snippet.unwrap_or(""));
    // SAFETY: each pointer is that of a text, whose length goes with it.
    let counts =
        unsafe { counted_walk(input.as_ptr(), input.len(), text.as_ptr(), text.len(), is_given) };
    (counts >> 24, counts & 0xff_ffff)
}

#[cfg(library)]
mod export {
    pub use super::library::Buffers;
    use super::library::{blank, records::*};
    use super::Counts;

    const WITHOUT: Options = Options {
        mode: MODE_FORMAT,
        is_raw: 0,
        hashes: 0,
        has_snippet: 0,
        appended_newline: 0,
    };
    const WITH: Options = Options { has_snippet: 1, ..WITHOUT };

    /// Makes buffers in which each result of a row has room.
    pub fn buffers() -> Buffers {
        let room = Answer {
            steps: 1 << 16,
            specs: 1 << 14,
            faults: 1 << 14,
            texts: 1 << 22,
            lines: 1 << 14,
            ..blank()
        };
        Buffers::with_room(room, 0)
    }

    /// The export alone, which is what is timed: its records are there, and nobody looks at them.
    pub fn alone(input: &str, snippet: Option<&str>, buffers: &mut Buffers) -> Counts {
        let code = match snippet {
            Some(snippet) => buffers.read(input, snippet, &WITH),
            None => buffers.read(input, "", &WITHOUT),
        };
        assert_eq!(code, DONE);
        let answer = buffers.records().answer;
        (answer.steps, answer.faults)
    }

    /// The counts in its records of the walk up to its first None.
    pub fn counted(input: &str, snippet: Option<&str>, buffers: &mut Buffers) -> Counts {
        let (steps, faults) = alone(input, snippet, buffers);
        let is_end = |step: &Step| step.kind == PIECE_NONE;
        let records = buffers.records();
        let end = records.steps[..steps].iter().position(is_end).expect("an end");
        (end, records.faults[..faults].iter().filter(|fault| fault.step <= end).count())
    }
}

/// Each walk, as it is timed and as it counts.
const WALKS: &[(Walk, Walk)] = &[
    #[cfg(not(growth))]
    (the_crate, the_crate),
    #[cfg(not(growth))]
    (the_original, the_original),
    #[cfg(any(library, growth))]
    (the_library, the_library),
    #[cfg(library)]
    (export::alone, export::counted),
];

fn sum_of(walk: Walk, inputs: &[Input], buffers: &mut Buffers) -> Counts {
    inputs.iter().fold((0, 0), |sum, (input, snippet)| {
        let (pieces, errors) = walk(black_box(input), snippet.as_deref(), buffers);
        (sum.0 + pieces, sum.1 + errors)
    })
}

/// The counts, and the shortest of the times of each walk, in microseconds; in turn, so that another
/// load on the machine hits all of them.
fn timed(name: &str, inputs: &[Input], times: usize) -> (Counts, Vec<f64>) {
    let mut buffers = buffers();
    let mut counted = |walk: Walk| sum_of(walk, inputs, &mut buffers);
    let counts: Vec<_> = WALKS.iter().map(|(_, counting)| counted(*counting)).collect();
    assert!(counts.iter().all(|it| *it == counts[0]), "{name}: the counts differ: {counts:?}");
    let mut best = vec![f64::MAX; WALKS.len()];
    for _ in 0..25 {
        for (best, (timed, _)) in best.iter_mut().zip(WALKS) {
            let start = Instant::now();
            for _ in 0..times {
                black_box(counted(*timed));
            }
            *best = best.min(start.elapsed().as_secs_f64() * 1e6);
        }
    }
    (counts[0], best)
}

fn row(name: &str, inputs: &[Input], times: usize) {
    let (_, best) = timed(name, inputs, times);
    let columns: String = best.iter().map(|time| format!("\t{time:.3}")).collect();
    println!("{name}{columns}");
}

/// Short texts, each of which is read a thousand times, and parts of long ones.
#[rustfmt::skip]
const SHORT: &[&str] = &[
    "hi {name}{}", "{}", "{0:?}", "{x}\n", "{x:#?} is {y}\n", "", "}", "{", "{a,}", "{a?}", "{a+}",
    "{a<}", "{a=}", "{a?:x}", "{:?#}", "{r#a}", "{99999}",
];
#[rustfmt::skip]
const PARTS: &[(&str, usize)] = &[
    ("{}", 16384), ("{name}", 8192), ("{name} ", 8192), ("{name:>8.3} ", 5461),
    ("{a:w$.p$}", 4096), ("{\u{e9}\u{e9}\u{e9}}", 4096), ("a", 1 << 16), ("\u{e9}", 1 << 15),
    ("a line {}\n", 4096), ("{_} ", 4096), ("{a.b} ", 1024),
];
/// Parts of texts at growing sizes, and how those with a literal are written in it. An `n` is a
/// part of one long name.
#[rustfmt::skip]
const KINDS: &[(&str, Option<&str>)] = &[
    ("a", None), ("When the parser is asked, it answers. ", None), ("größe 大小 🦀! ", None),
    ("{}", None), ("{{}}", None), ("{:?}", None), ("{name} ", None), ("{name:>8.3} ", None),
    ("{a:w$.p$}", None), ("{größe} ", None), ("{:*^+#08.prec$x?}", None), ("{_} ", None),
    ("{r#name} ", None), ("{a.b} ", None), ("{99999} ", None), ("n", None),
    ("no escape at all ", Some("no escape at all ")), ("aé", Some("\\x61\\u{e9}")),
    ("a line of text\n", Some("a line of text\\n")), ("line\n        ", Some("line\\n        ")),
    ("words", Some("words\\\n    ")), ("{name}\n", Some("{name}\\n")), ("{:?}\t", Some("{:?}\\t")),
];

/// Writes nanoseconds for each byte at growing sizes, how many times the last is the first, and
/// nanoseconds for each piece at the last.
fn show_growth() {
    println!("{:40}    1 KiB  256 KiB    1 MiB   growth ns/piece", "ns for each byte");
    for (part, written) in KINDS {
        let shown = match written {
            Some(written) => format!("{written:?}, a literal"),
            None => format!("{part:?}"),
        };
        print!("{shown:40}");
        let (mut first, mut last, mut pieces) = (None, 0.0, 0);
        for size in [1 << 10, 1 << 18, 1 << 20] {
            let count = size / written.unwrap_or(part).len();
            let literal = written.map(|it| format!("\"{}\"", it.repeat(count)));
            let text = match *part {
                "n" => format!("{{{}}}", "n".repeat(size - 2)),
                part => part.repeat(count),
            };
            let (counts, best) = timed(part, &[(text, literal)], (1 << 20) / size);
            (last, pieces) = (best[0] * 1e3 / f64::from(1 << 20), counts.0);
            first = first.or(Some(last));
            print!("{last:9.2}");
        }
        let each = last * f64::from(1 << 20) / pieces as f64;
        println!("{:8.2}x{each:9.1}", last / first.unwrap_or(last));
    }
}

fn main() {
    let Some(file) = std::env::args().nth(1) else { return show_growth() };
    let strings = cases::strings(&file).into_iter();
    let with: Vec<Input> = strings.map(|(text, literal)| (text, Some(literal))).collect();
    let without: Vec<Input> = with.iter().map(|(text, _)| (text.clone(), None)).collect();
    row(&format!("{} strings", with.len()), &without, 1);
    row("the same, with their literals", &with, 1);
    let short = SHORT.iter().map(|text| (text.to_string(), 1000));
    for (text, times) in short.chain(PARTS.iter().map(|(part, count)| (part.repeat(*count), 1))) {
        let shown: String = text.chars().take(14).collect();
        let shown = shown.replace('\n', "\\n");
        let bytes = format!("{} bytes", text.len());
        let often = if times > 1 { "1000 times" } else { &bytes };
        let literal = format!("\"{}\"", text.replace('\n', "\\n"));
        row(&format!("{shown:14} {often}"), &[(text.clone(), None)], times);
        let name = format!("{shown:14} {often}, with its literal");
        row(&name, &[(text, Some(literal))], times);
    }
}
