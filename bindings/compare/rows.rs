//! Rows of answers from outside, over the crate of bindings/rust: rows FILE... Each row is read as
//! it stands there, and all that this gives is compared; then its input is read in three worlds, as
//! it is, as an ordinary literal in which each character is an escape with a continuation after it,
//! and as a raw literal, and the readings of these are compared without their spans.
use dephungo::*;
use std::fmt::Write;
use std::ops::Range;

/// A column, in which a backslash stands before n, t, r and itself, and before x and two digits for
/// a byte.
fn text_of(column: &str) -> String {
    let (mut out, mut bytes) = (Vec::new(), column.bytes());
    while let Some(byte) = bytes.next() {
        out.push(match if byte == b'\\' { bytes.next() } else { None } {
            None | Some(b'\\') => byte,
            Some(b'n') => b'\n',
            Some(b't') => b'\t',
            Some(b'r') => b'\r',
            Some(b'x') => {
                let digits: String = bytes.by_ref().take(2).map(char::from).collect();
                u8::from_str_radix(&digits, 16).expect("two digits")
            }
            Some(other) => panic!("a backslash before the byte {other}"),
        });
    }
    String::from_utf8(out).expect("a text")
}

fn escaped(text: &str) -> String {
    let shown = |c: char| match c {
        '\0' => "\\0".to_string(),
        '\t' | '\r' | '\n' | '\'' | '"' | '\\' => c.escape_default().to_string(),
        _ if c.is_ascii_control() => format!("\\u{{{:x}}}", c as u32),
        _ => c.to_string(),
    };
    text.chars().map(shown).collect()
}

fn at(range: &Option<Range<usize>>) -> String {
    range.as_ref().map_or(String::new(), |range| format!("@{range:?}"))
}

fn count(count: &Count<'_>) -> String {
    match count {
        CountIs(n) => format!("is:{n}"),
        CountIsName(name, range) => format!("name:{name}@{range:?}"),
        CountIsParam(n) => format!("param:{n}"),
        CountIsStar(n) => format!("star:{n}"),
        CountImplied => "implied".to_string(),
    }
}

fn argument(a: &Argument<'_>) -> String {
    let mut out = match &a.position {
        ArgumentImplicitlyIs(n) => format!("arg implicit {n}"),
        ArgumentIs(n) => format!("arg index {n}"),
        ArgumentNamed(name) => format!("arg name {name}"),
    };
    let f = &a.format;
    out += &format!(" {:?}", a.position_span);
    if let Some(c) = f.fill {
        out += &format!(" fill=\"{}\"", escaped(&c.to_string()));
    }
    out += &at(&f.fill_span);
    out += match f.align {
        AlignUnknown => "",
        AlignLeft => " align=left",
        AlignRight => " align=right",
        AlignCenter => " align=center",
    };
    out += match f.sign {
        None => "",
        Some(Sign::Plus) => " sign=+",
        Some(Sign::Minus) => " sign=-",
    };
    out += if f.alternate { " alt" } else { "" };
    out += if f.zero_pad { " zero" } else { "" };
    if f.width != CountImplied {
        out += &format!(" width={}", count(&f.width));
    }
    out += &at(&f.width_span);
    if f.precision != CountImplied || f.precision_span.is_some() {
        out += &format!(" precision={}", count(&f.precision));
    }
    out += &at(&f.precision_span);
    out += match f.debug_hex {
        None => "",
        Some(DebugHex::Lower) => " hex=lower",
        Some(DebugHex::Upper) => " hex=upper",
    };
    if !f.ty.is_empty() || f.ty_span.is_some() {
        out += &format!(" ty=\"{}\"", escaped(f.ty));
    }
    out + &at(&f.ty_span)
}

fn error(e: &ParseError) -> String {
    let mut out = format!("fault {:?} {}\n", e.span, e.description);
    out += &e.note.as_ref().map_or(String::new(), |note| format!("note {note}\n"));
    out += &format!("label {}\n", e.label);
    if let Some((label, range)) = &e.secondary_label {
        out += &format!("second {range:?} {label}\n");
    }
    out + &match &e.suggestion {
        Suggestion::None => String::new(),
        Suggestion::UsePositional => "suggest positional\n".to_string(),
        Suggestion::RemoveRawIdent(range) => format!("suggest raw {range:?}\n"),
        Suggestion::ReorderFormatParameter(range, text) => {
            format!("suggest reorder {range:?} {text}\n")
        }
        Suggestion::AddMissingColon(range) => format!("suggest colon {range:?}\n"),
        Suggestion::UseRustDebugPrintingMacro => "suggest dbg\n".to_string(),
    }
}

/// What a parser gives, up to the call at the end of the input.
fn listing(mut parser: Parser<'_>) -> String {
    let mut out = format!("source {}\n", if parser.is_source_literal { "yes" } else { "no" });
    let mut is_end = false;
    while !is_end {
        is_end = parser.peek().is_none();
        out += &match parser.next() {
            Some(Piece::Lit(text)) => format!("lit \"{}\"\n", escaped(text)),
            Some(Piece::NextArgument(a)) => format!("{}\n", argument(&a)),
            None => "none\n".to_string(),
        };
    }
    writeln!(out, "curarg {}", parser.curarg).unwrap();
    out.extend(parser.errors.iter().map(error));
    out.extend(parser.arg_places.iter().map(|range| format!("place {range:?}\n")));
    out.extend(parser.line_spans.iter().map(|range| format!("line {range:?}\n")));
    out
}

/// A listing without what depends on the literal: whether it is one, places, lines and spans, which
/// are the digits around two dots.
fn bare(listing: &str) -> String {
    let place = ["source ", "place ", "line "];
    let is_kept = |line: &&str| !place.iter().any(|word| line.starts_with(word));
    let lines: String = listing.split_inclusive('\n').filter(is_kept).collect();
    let parts: Vec<_> = lines.split("..").map(|it| it.trim_matches(char::is_numeric)).collect();
    parts.join("..")
}

/// Compares what an input gives in three worlds.
fn same_in_each_world(name: &str, input: &str, mode: ParseMode) {
    let read = |style, snippet| bare(&listing(Parser::new(input, style, snippet, false, mode)));
    let escape = |c| format!("\\u{{{:x}}}\\\n ", u32::from(c));
    let content: String = input.chars().map(escape).collect();
    let literals = [(None, format!("\"{content}\"")), (Some(3), format!("r###\"{input}\"###"))];
    for (style, literal) in literals {
        assert_eq!(read(style, Some(literal)), read(None, None), "row {name} in another world");
    }
}

/// Compares each row of a text, and returns how many there are.
pub fn compare(file: &str, text: &str) -> usize {
    let mut rows = 0;
    for line in text.split('\n').filter(|line| !line.is_empty() && !line.starts_with("# ")) {
        let columns: Vec<_> = line.split('\t').collect();
        let [name, mode, style, newline, snippet, input, wanted] = columns[..] else {
            panic!("{file}: {line:?}")
        };
        // (another result is a script of calls, which are those of the proved library)
        if !wanted.starts_with("source ") {
            continue;
        }
        let wanted = text_of(wanted);
        let mode = match mode {
            "format" => ParseMode::Format,
            "asm" => ParseMode::InlineAsm,
            "diagnostic" => ParseMode::Diagnostic,
            "diagnostic-named" => ParseMode::DiagnosticNamed,
            other => panic!("{file}: the mode {other}"),
        };
        // (on 32 bits a row with more hashes than these count is left out)
        let hashes: Option<u64> = style.parse().ok();
        if usize::BITS < 64 && hashes.map_or(false, |hashes| hashes > usize::MAX as u64 / 2) {
            continue;
        }
        let (input, snippet) = (text_of(input), text_of(snippet));
        let snippet = snippet.strip_prefix('=').map(str::to_string);
        let style = hashes.map(|hashes| hashes as usize);
        let out = listing(Parser::new(&input, style, snippet, newline == "1", mode));
        assert_eq!(out, wanted, "row {name} of {file}");
        same_in_each_world(name, &input, mode);
        rows += 1;
    }
    rows
}

fn main() {
    let text = |file: &String| std::fs::read_to_string(file).expect("a file of rows");
    let files: Vec<String> = std::env::args().skip(1).collect();
    let rows: usize = files.iter().map(|file| compare(file, &text(file))).sum();
    assert!(rows > 0, "no row");
    println!("{rows} rows, each in three worlds besides: all agree");
}
