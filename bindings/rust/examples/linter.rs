//! A linter: `linter FILE..` reports the faults of the format strings of files of Rust, a line
//! each, and its status is 1 if there is any.
use dephungo::source::{file_faults, Places, Table};
use std::process::ExitCode;

fn main() -> ExitCode {
    let (table, mut status) = (Table::standard(), ExitCode::SUCCESS);
    for path in std::env::args().skip(1) {
        let text = match std::fs::read_to_string(&path) {
            Ok(text) => text,
            Err(error) => {
                eprintln!("{path}: {error}");
                return ExitCode::from(2);
            }
        };
        let places = Places::new(&text);
        for finding in file_faults(&text, &table, true).findings {
            let place = places.place_of(finding.span.start);
            let (line, column) = (place.line, place.column);
            println!("{path}:{line}:{column}: {} [{}]", finding.title, finding.id);
            status = ExitCode::from(1);
        }
    }
    status
}
