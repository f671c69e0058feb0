//! The report on placeholders and arguments, beside one that looks each of them up by itself.
#![cfg(feature = "lint")]
use dephungo::{report::check, *};

/// Which numbers and which names pieces use, in order.
fn uses<'a>(pieces: &[Piece<'a>]) -> (Vec<usize>, Vec<&'a str>) {
    let (mut numbers, mut names) = (Vec::new(), Vec::new());
    for piece in pieces {
        let Piece::NextArgument(argument) = piece else {
            continue;
        };
        match argument.position {
            ArgumentNamed(name) => names.push(name),
            ArgumentIs(number) | ArgumentImplicitlyIs(number) => numbers.push(number),
        }
        for count in [&argument.format.width, &argument.format.precision] {
            match count {
                CountIsName(name, _) => names.push(name),
                CountIsParam(number) | CountIsStar(number) => numbers.push(*number),
                CountIs(_) | CountImplied => {}
            }
        }
    }
    (numbers, names)
}

/// The first entry of each of the names that the others lack.
fn lacked<'a>(names: &[&'a str], others: &[&'a str]) -> Vec<&'a str> {
    let mut found = Vec::new();
    for name in names {
        if !others.contains(name) && !found.contains(name) {
            found.push(*name);
        }
    }
    found
}

/// The report on a text and a list of arguments is that of looking up each by itself.
fn check_report(text: &str, given: usize, names: &[&str]) {
    let pieces: Vec<Piece> = Parser::new(text, None, None, false, ParseMode::Format).collect();
    let (used, used_names) = uses(&pieces);
    let report = check(&pieces, given, names);
    let mut missing: Vec<usize> = used.iter().copied().filter(|&n| n >= given).collect();
    missing.sort();
    missing.dedup();
    let unused: Vec<usize> = (0..given).filter(|n| !used.contains(n)).collect();
    assert_eq!(
        (report.missing_index, report.unused_index),
        (missing, unused),
        "{text}"
    );
    assert_eq!(report.missing_name, lacked(&used_names, names), "{text}");
    assert_eq!(report.unused_name, lacked(names, &used_names), "{text}");
}

/// Checks each text of some parts, one after the other, with each of these lists.
fn check_texts(parts: &[&str], count: u32, given: &[usize], names: &[&[&str]]) {
    for number in 0..parts.len().pow(count) {
        let part = |place| parts[number / parts.len().pow(place) % parts.len()];
        let text: String = (0..count).map(part).collect();
        for given in given {
            names
                .iter()
                .for_each(|names| check_report(&text, *given, names));
        }
    }
}

#[test]
fn each_text_with_each_list() {
    let parts = [
        "{}",
        "a",
        "{2}",
        "{n}",
        "{:w$}",
        "{m:.*}",
        "{:>4$.n$}",
        "{{",
    ];
    let names = [&[][..], &["n"], &["w", "z", "n"], &["z", "z", "m"]];
    check_texts(&parts, 3, &[0, 1, 2, 3, 4, 5], &names);
}

/// Numbers that are far from each other, in each order.
#[test]
fn far_numbers() {
    let parts = ["{0}", "{15}", "{16}", "{:17$}", "{:.40$}", "{65535}"];
    check_texts(&parts, 5, &[0, 16, 41], &[&[]]);
}

/// Up to 20 names, each used twice, with the last ones of as many, in both orders;
/// in the second one each is given twice.
#[test]
fn many_names() {
    let all: Vec<String> = (0..20).map(|n| format!("n{n}")).collect();
    for used in 0..=20 {
        let text: String = all[..used].iter().map(|it| format!("{{{it}}}")).collect();
        for first in 0..=20 {
            let mut names: Vec<&str> = all[first..].iter().map(String::as_str).collect();
            check_report(&text.repeat(2), 0, &names);
            names.reverse();
            check_report(&text.repeat(2), 0, &names.repeat(2));
        }
    }
}

/// More arguments than a block of marks or two hold.
#[test]
fn many_numbers() {
    for count in [63, 64, 65, 71, 128, 129, 200] {
        let text = "{}".repeat(count);
        for given in [
            0, 1, 62, 63, 64, 65, 70, 71, 72, 127, 128, 129, 199, 200, 201,
        ] {
            check_report(&text, given, &[]);
            check_report(&format!("{text}{{0}}{{140}}"), given, &["n"]);
        }
    }
}
