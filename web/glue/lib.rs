//! The extracted parser for the page: a literal goes in, and its reading comes out as JSON.
use dephungo::faults::{draw, edits, fix, Picture};
use dephungo::{literal::read_content, report::check, tokens::*, ParseMode::*, *};
use std::{fmt::Display, ops::Range, slice::from_ref, sync::Mutex};

/// The most faults, or arguments of a kind, that are listed.
const MOST: usize = 50;
/// The most faults of a text with tokens and a fix, which take time that grows with their square.
const FEW: usize = 4000;
/// The most bytes of a text in which faults are drawn.
const SHORT: usize = 20_000;

/// The input, and then the answer.
static BUFFER: Mutex<Vec<u8>> = Mutex::new(Vec::new());

/// Gives the buffer `len` bytes, and returns where they are.
#[no_mangle]
pub extern "C" fn buffer(len: usize) -> *mut u8 {
    let mut buffer = BUFFER.lock().unwrap();
    buffer.resize(len, 0);
    buffer.as_mut_ptr()
}

/// Reads the arguments, a newline and a literal in the buffer, and leaves the answer there: nothing
/// if that is none. Its text is after `start` bytes, of which `before` are not shown; 0 is for a
/// text alone. Unless `all` is to be read, reading stops at a brace that closes nothing.
#[no_mangle]
pub extern "C" fn read(before: usize, start: usize, mode: usize, all: bool) -> usize {
    let mut buffer = BUFFER.lock().unwrap();
    let input = String::from_utf8_lossy(&buffer).into_owned();
    *buffer = answer(&input, before, start, mode, all).unwrap_or_default().into_bytes();
    buffer.len()
}

fn answer(input: &str, before: usize, start: usize, mode: usize, all: bool) -> Option<String> {
    let (args, literal) = input.split_once('\n')?;
    let mode = [Format, InlineAsm, Diagnostic, DiagnosticNamed][mode];
    let style = start.checked_sub(2);
    let end = literal.len() - style.map_or(start, |hashes| hashes + 1);
    let snippet = (start > 0).then(|| literal.to_string());
    let mut text = literal[start..end].to_string();
    if start == 1 {
        text = read_content(&text)?.iter().map(|it| it.character).collect();
    }
    let mut parser = Parser::new(&text, style, snippet.clone(), false, mode);
    let (mut shown, mut pieces) = (Vec::new(), Vec::new());
    let (mut calls, mut faults, mut is_lone) = (0, 0, false);
    while let Some((next, ..)) = parser.peek().filter(|_| all || !is_lone) {
        let piece = parser.next();
        let stop = parser.peek().map_or(end, |(next, ..)| next.start);
        is_lone = piece.is_none();
        shown.extend((calls < 200).then(|| parts_of(next.start..stop, &piece)));
        pieces.extend(piece.filter(|_| !args.is_empty()));
        calls += 1;
        faults += parser.errors.len() - MOST.min(faults);
        parser.errors.truncate(MOST); // it takes long to put a fault in front of many
    }
    let fixed = if faults > FEW { None } else { fix(&text, style, literal, false, mode) };
    let found = if faults > FEW { vec![] } else { tokens(&text, style, snippet, false, mode) };
    let mut words = args.split(',');
    let positional = words.next()?.parse().unwrap_or(0);
    let report = check(&pieces, positional, &words.collect::<Vec<_>>());
    // the part that is not shown becomes a line in front
    let source = " ".repeat(before) + "\n" + if before > 0 { &text } else { literal };
    let picture = Picture {
        path: "text",
        source: &source,
        line_start: 0,
        literal_start: 1,
        width: 140,
        colours: false,
    };
    let kind = |it: &Token| part(&format!("{:?}", it.kind), "", Some(&it.span));
    let lists = [
        format!("\"counts\":[{calls},{faults}]"),
        list("pieces", 200, shown.into_iter()),
        list("faults", MOST, parser.errors.iter().map(|it| fault(mode, it, &picture))),
        list("tokens", 2000, found.iter().map(kind)),
        list("fixed", 1, fixed.iter().map(|it| part("fixed", &it.snippet, None))),
        list("missing argument", MOST, report.missing_index.iter().map(|n| part("", n, None))),
        list("missing name", MOST, report.missing_name.iter().map(|it| part("", it, None))),
        list("unused argument", MOST, report.unused_index.iter().map(|n| part("", n, None))),
        list("unused name", MOST, report.unused_name.iter().map(|it| part("", it, None))),
    ];
    Some(format!("{{{}}}", lists.join(",")))
}

/// The place of a call, and the parts of its piece. A part that is not there has no value.
fn parts_of(place: Range<usize>, piece: &Option<Piece<'_>>) -> String {
    let parts = match piece {
        None => part("closes nothing", "}", None),
        Some(Piece::Lit(text)) => part("text", text, None),
        Some(Piece::NextArgument(it)) => argument(it).join(","),
    };
    format!("[{},{parts}]", part("piece", "", Some(&place)))
}

fn argument(Argument { position, position_span, format }: &Argument<'_>) -> [String; 10] {
    [
        match position {
            ArgumentImplicitlyIs(n) => part("next argument", n, Some(position_span)),
            ArgumentIs(n) => part("argument number", n, Some(position_span)),
            ArgumentNamed(name) => part("argument name", name, Some(position_span)),
        },
        part("fill", format.fill.map_or(String::new(), String::from), format.fill_span.as_ref()),
        part("alignment", ["left", "right", "center", ""][format.align as usize], None),
        part("sign", format.sign.map_or("", |it| ["+", "-"][it as usize]), None),
        part("alternate form", if format.alternate { "#" } else { "" }, None),
        part("zero padding", if format.zero_pad { "0" } else { "" }, None),
        count("width", &format.width, format.width_span.as_ref()),
        count("precision", &format.precision, format.precision_span.as_ref()),
        part("hex digits", format.debug_hex.map_or("", |it| ["lower", "upper"][it as usize]), None),
        part("type", format.ty, format.ty_span.as_ref()),
    ]
}

/// A width or a precision, and the name of the argument that it is from.
fn count(name: &str, count: &Count<'_>, span: Option<&Range<usize>>) -> String {
    let of = |from: &str, value: &dyn Display| part(&format!("{name}{from}"), value, span);
    match count {
        CountIs(n) => of("", n),
        CountIsParam(n) => of(" from argument", n),
        CountIsStar(n) => of(" from next argument", n),
        CountIsName(word, place) => of(" from", word) + "," + &part("its name", word, Some(place)),
        CountImplied => of("", &""),
    }
}

/// The description of a fault, its drawing, its note, and its suggestion.
fn fault(mode: ParseMode, error: &ParseError, picture: &Picture<'_>) -> String {
    let drawn = if picture.source.len() > SHORT { "".into() } else { draw(mode, picture, error) };
    let is_local = matches!(error.suggestion, Suggestion::UsePositional);
    let help = if is_local { "Pass the value as an argument by position." } else { "" };
    let mut parts = vec![
        part("says", &error.description, Some(&error.span)),
        part("drawn", drawn, None),
        part("note", error.note.as_deref().unwrap_or(""), None),
        part("help", help, None),
    ];
    let edits = edits(mode, from_ref(error));
    parts.extend(edits.iter().map(|it| part("edit", it.text, Some(&it.span))));
    format!("[{}]", parts.join(","))
}

/// A list by its name: how many items it has, and at most `most` of them.
fn list(name: &str, most: usize, items: impl ExactSizeIterator<Item = String>) -> String {
    let (count, first) = (items.len(), items.take(most).collect::<Vec<_>>().join(","));
    format!("\"{name}\":{{\"count\":{count},\"first\":[{first}]}}")
}

/// A part: its name, its value, and where it starts and ends if that is known.
fn part(name: &str, value: impl Display, span: Option<&Range<usize>>) -> String {
    let is_plain = |c: char| c >= ' ' && c != '"' && c != '\\';
    let escaped = |c| if is_plain(c) { c.to_string() } else { format!("\\u{:04x}", c as u32) };
    let value: String = value.to_string().chars().map(escaped).collect();
    let span = span.map_or(String::new(), |it| format!(",{},{}", it.start, it.end));
    format!("[\"{name}\",\"{value}\"{span}]")
}
