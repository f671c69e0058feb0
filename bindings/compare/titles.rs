//! The calls of the rows of crates/tests_calls, also those of `asm!`, and the texts of attributes there,
//! each in a file, over the crate of bindings/rust: what is wrong with them has the titles that rustc
//! gives it, and the labels, the notes and the help under these. The tables are read as they stand
//! there.
use dephungo::source::{call_faults, calls, file_faults};
use dephungo::source::{CallArgument, CallFault, Finding, FormatString, FormatArgument, Table};
use std::ops::Range;

#[path = "../../crates/tests_calls/src/calls/missing_rows.rt"]
mod missing_rows;
#[path = "../../crates/tests_calls/src/calls/name_rows.rt"]
mod name_rows;
#[path = "../../crates/tests_calls/src/asm/operand_rows.rt"]
mod operand_rows;
#[path = "../../crates/tests_calls/src/asm/reference_rows.rt"]
mod reference_rows;
#[path = "../../crates/tests_calls/src/asm/rows.rt"]
mod rows;
#[path = "../../crates/tests_calls/src/calls/shown_rows.rt"]
mod shown_rows;
#[path = "../../crates/tests_calls/src/calls/string_rows.rt"]
mod string_rows;
#[path = "../../crates/tests_calls/src/asm/template_rows.rt"]
mod template_rows;
#[path = "../../crates/tests_calls/src/asm/text_rows.rt"]
mod text_rows;
#[path = "../../crates/tests_calls/src/calls/rows.rt"]
mod title_rows;
#[path = "../../crates/tests_calls/src/calls/unused_rows.rt"]
mod unused_rows;

/// What is in front of the literal in a file.
const FRONT: &str = "fn f() { format!(";
/// What is in front of the first template in a file.
const ASM_FRONT: &str = "fn f() { asm!(";
/// What is in front of the literal of an attribute in a file.
const TEXT_FRONT: &str = "#[diagnostic::on_unimplemented(message = ";

/// A file with a call.
fn file_of(text: &str, arguments: &str) -> String {
    let comma = if arguments.is_empty() { "" } else { ", " };
    format!("{FRONT}\"{text}\"{comma}{arguments}); }}")
}

/// What is known of an argument of a file. Of one with a name a call gives no variable, and others may.
fn given<'a>(file: &'a str, argument: &CallArgument<'a>) -> FormatArgument<'a> {
    let value = &file[argument.value.clone()];
    let is_variable = value.bytes().all(|byte| byte.is_ascii_lowercase());
    FormatArgument { variable: is_variable.then_some(value), ..argument.format_argument }
}

/// The titles of what is wrong with the call of a file, each on a line.
fn titles(file: &str, text: &str) -> String {
    let found = calls(file, &Table::standard(), true);
    let [call] = &found[..] else { panic!("one call in {file}") };
    let given: Vec<FormatArgument> = call.format_arguments().iter().map(|argument| given(file, argument)).collect();
    let checked = call_faults(
        FormatString {
            text,
            style: None,
            snippet: call.literal(),
            appended_newline: false,
            captures_variables: true,
        },
        &given,
    );
    let title = |fault: &CallFault| match fault {
        CallFault::NameUsedByIndex { .. } => format!("warning: {}", checked.title(fault)),
        _ => checked.title(fault),
    };
    checked.faults().iter().map(title).collect::<Vec<_>>().join("\n")
}

/// What is shown under the title of a finding, as a row has it. Ranges count from the end of what is
/// in front, and that of the whole call is `call`.
fn labels_of(front: &str, finding: &Finding) -> String {
    let at = |it: &Range<usize>| match it.start.checked_sub(front.len()) {
        Some(start) => format!("{start}..{}", it.end - front.len()),
        None => "call".to_string(),
    };
    let label = |sign, range, text: &str| format!("{sign}{} {text}\n", at(range));
    let labels = finding.labels.iter();
    let labels = labels.map(|it| label(if it.is_primary { '^' } else { '-' }, &it.range, &it.text));
    let mut lines: Vec<String> = labels.collect();
    lines.sort();
    for note in &finding.notes {
        let ranges: String = note.ranges.iter().map(|it| format!(" {}", at(it))).collect();
        lines.push(format!("= {}{ranges}\n", note.text));
    }
    if let Some(help) = &finding.help {
        let edits = help.edits.iter().map(|it| format!(" {} `{}`", at(&it.range), it.text));
        lines.push(format!("? {}{}\n", help.text, edits.collect::<String>()));
    }
    lines.concat()
}

/// The findings of a file, each with its title, as a row of crates/tests_calls has them.
fn answers(front: &str, file: &str) -> Vec<String> {
    let findings = file_faults(file, &Table::standard(), true).findings;
    findings.iter().map(|it| format!("{}\n{}", it.title, labels_of(front, it))).collect()
}

/// What a row says without the range that a help shows, which a finding does not have.
fn without_range_of_help(said: &str) -> String {
    let is_range = |c: char| c.is_ascii_digit() || c == '.' || c == ' ';
    let line = |it: &str| match it.starts_with("? ") {
        true => format!("{}\n", it.trim_end_matches(is_range)),
        false => format!("{it}\n"),
    };
    said.lines().map(line).collect()
}

fn main() {
    for row in &title_rows::ROWS {
        let file = file_of(row.text, row.arguments);
        assert_eq!(titles(&file, row.text), row.titles, "{file}");
    }
    let all_shown = [
        missing_rows::MISSING, unused_rows::UNUSED, name_rows::NAMES, string_rows::STRINGS,
    ].concat();
    for row in &all_shown {
        let file = file_of(row.text, row.arguments);
        let findings = file_faults(&file, &Table::standard(), true).findings;
        let lines: String = findings.iter().map(|it| labels_of(FRONT, it)).collect();
        assert_eq!(lines, row.output, "{file}");
    }
    let asm_calls = [
        operand_rows::OPERANDS, reference_rows::REFERENCES, template_rows::TEMPLATES,
    ].concat();
    for row in &asm_calls {
        let file = format!("{ASM_FRONT}{}); }}", row.call);
        assert_eq!(answers(ASM_FRONT, &file).concat(), without_range_of_help(row.output), "{file}");
    }
    for row in &text_rows::TEXT_ROWS {
        let item = "pub trait T<A, B: Copy, const N: usize> {}";
        let file = format!("{TEXT_FRONT}{})]\n{item}\n", row.literal);
        let mut outputs = answers(TEXT_FRONT, &file);
        outputs.sort();
        assert_eq!(outputs.concat(), row.output, "{file}");
    }
    let (titles, shown) = (title_rows::ROWS.len(), all_shown.len());
    println!("{titles} calls with their titles, {shown} with what is under them: all as of rustc");
    let (calls, texts) = (asm_calls.len(), text_rows::TEXT_ROWS.len());
    println!("{calls} calls of asm! and {texts} texts of attributes: all as of rustc");
}
