//! Reads the strings of a file with their literals by the call from C, so that its instructions can
//! be counted: calls COUNT STRINGS reads all of them COUNT times, into buffers that are kept, and
//! writes the number of their steps. STRINGS is as walks.rs reads it.
// (of the records it looks at the answer alone)
#![allow(dead_code)]
mod cases;
mod library;

use library::{blank, records::*, Buffers};
use std::hint::black_box;

fn main() {
    let mut words = std::env::args().skip(1);
    let count: usize = words.next().and_then(|it| it.parse().ok()).expect("a count");
    let strings = cases::strings(&words.next().expect("a file of strings"));
    let (steps, specs, faults, texts, lines) = (256, 64, 64, 4096, 64);
    let room = Answer { steps, specs, faults, texts, lines, ..blank() };
    let mut buffers = Buffers::with_room(room, 0);
    let options = Options { has_snippet: 1, ..blank() };
    let mut all = 0;
    for (text, literal) in (0..count).flat_map(|_| &strings) {
        assert_eq!(buffers.read(black_box(text), literal, &options), DONE, "{literal}");
        assert_eq!(buffers.records().answer.is_source_literal, 1, "{literal}");
        all += buffers.records().answer.steps;
    }
    println!("{all}");
}
