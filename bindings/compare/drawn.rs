//! The drawings of the rows of crates/tests_drawings, over the crate of bindings/rust. The tables are
//! read as they stand there.
use dephungo::faults::{draw, errors_of, Picture};
use dephungo::ParseMode;

#[path = "../../crates/tests_drawings/src/drawn/asm_rows.rt"]
mod asm_rows;
#[path = "../../crates/tests_drawings/src/drawn/coloured_rows.rt"]
mod coloured_rows;
#[path = "../../crates/tests_drawings/src/drawn/cut_rows.rt"]
mod cut_rows;
#[path = "../../crates/tests_drawings/src/drawn/line_rows.rt"]
mod line_rows;
#[path = "../../crates/tests_drawings/src/drawn/row.rt"]
mod row;
#[path = "../../crates/tests_drawings/src/drawn/short_rows.rt"]
mod short_rows;

/// The first fault of a row is drawn as it says.
fn check(mode: ParseMode, width: usize, colours: bool, row: &row::Row) {
    let snippet = Some(row.literal.to_string());
    let errors = errors_of(row.text, row.style, snippet, row.appended_newline, mode);
    let source = [row.text_before, row.literal, row.text_after].concat();
    let picture = Picture {
        path: "a.rs",
        source: &source,
        line_start: row.line,
        literal_start: row.text_before.len(),
        width,
        colours,
    };
    let wanted = row.lines.join("\n") + "\n\n";
    assert_eq!(draw(mode, &picture, &errors[0]), wanted, "{}", row.literal);
}

fn main() {
    let tables = [
        (ParseMode::Format, 140, false, short_rows::short_rows()),
        (ParseMode::Format, 140, false, line_rows::line_rows()),
        (ParseMode::Format, 40, false, cut_rows::cut_rows()),
        (ParseMode::InlineAsm, 140, false, asm_rows::asm_rows()),
        (ParseMode::Format, 140, true, coloured_rows::coloured_rows()),
    ];
    for (mode, width, colours, rows) in tables {
        rows.iter().for_each(|row| check(mode, width, colours, row));
    }
    let count: usize = tables.iter().map(|(.., rows)| rows.len()).sum();
    println!("{count} drawings: all are those of rustc");
}
