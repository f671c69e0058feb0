//! The records of the static library for random inputs, and for as many literals with right and
//! wrong escapes, beside the readings of the crate of bindings/rust: records SEED COUNT.
mod cases;
mod library;
#[macro_use]
mod seen;

use cases::{case, literal, same_as_its_literal, Case, Random};
use dephungo::*;
use library::{blank, records::*, Buffers, Records};
use std::ops::Range;

seen_by!(ours, dephungo);

fn range(at: Extent) -> Range<usize> {
    at.start..at.end
}

fn maybe(has_range: u8, at: Extent) -> Option<Range<usize>> {
    (has_range != 0).then(|| range(at))
}

/// The meaning of a number.
fn meant<T: Clone>(tag: u8, meanings: &[(u8, T)]) -> T {
    let found = meanings.iter().find(|(number, _)| *number == tag);
    found.unwrap_or_else(|| panic!("a record with the tag {tag}")).1.clone()
}

/// A piece of an input by its records; each implicit number is so much higher.
fn piece<'a>(input: &'a str, step: &Step, specs: &[Spec], more: usize) -> Option<Piece<'a>> {
    match step.kind {
        PIECE_NONE => return None,
        PIECE_TEXT => return Some(Piece::Lit(&input[range(step.text)])),
        PIECE_ARGUMENT => {}
        other => panic!("a step with the tag {other}"),
    }
    let position = match step.position {
        POSITION_IMPLICIT => ArgumentImplicitlyIs(step.number.wrapping_add(more)),
        POSITION_INDEX => ArgumentIs(step.number),
        POSITION_NAMED => ArgumentNamed(&input[range(step.text)]),
        other => panic!("a position with the tag {other}"),
    };
    let spec = step.spec.checked_sub(1).map(|at| &specs[at]);
    let format = spec.map_or_else(FormatSpec::default, |spec| format_spec(input, spec, more));
    let position_span = range(step.position_span);
    Some(Piece::NextArgument(Box::new(Argument { position, position_span, format })))
}

/// A count by its kind, its number, its name as a range of the input, and the span of that.
fn count(input: &str, kind: u8, number: usize, [name, span]: [Extent; 2], more: usize) -> Count<'_> {
    match kind {
        COUNT_IMPLIED => CountImplied,
        COUNT_IS => CountIs(number.try_into().expect("a number of 16 bits")),
        COUNT_IS_NAME => CountIsName(&input[range(name)], range(span)),
        COUNT_IS_PARAM => CountIsParam(number),
        COUNT_IS_STAR => CountIsStar(number.wrapping_add(more)),
        other => panic!("a count with the tag {other}"),
    }
}

fn format_spec<'a>(input: &'a str, spec: &Spec, more: usize) -> FormatSpec<'a> {
    FormatSpec {
        fill: char::from_u32(spec.fill),
        fill_span: maybe(spec.has_fill_span, spec.fill_span),
        align: meant(spec.align, &[
            (ALIGN_UNKNOWN, AlignUnknown),
            (ALIGN_LEFT, AlignLeft),
            (ALIGN_RIGHT, AlignRight),
            (ALIGN_CENTER, AlignCenter),
        ]),
        sign: meant(spec.sign, &[
            (SIGN_NONE, None),
            (SIGN_PLUS, Some(Sign::Plus)),
            (SIGN_MINUS, Some(Sign::Minus)),
        ]),
        alternate: spec.alternate != 0,
        zero_pad: spec.zero_pad != 0,
        debug_hex: meant(spec.debug_hex, &[
            (HEX_NONE, None),
            (HEX_LOWER, Some(DebugHex::Lower)),
            (HEX_UPPER, Some(DebugHex::Upper)),
        ]),
        precision: count(
            input,
            spec.precision_kind,
            spec.precision_number,
            [spec.precision_name, spec.precision_name_span],
            more,
        ),
        precision_span: maybe(spec.has_precision_span, spec.precision_span),
        width: count(
            input,
            spec.width_kind,
            spec.width_number,
            [spec.width_name, spec.width_name_span],
            more,
        ),
        width_span: maybe(spec.has_width_span, spec.width_span),
        ty: match spec.type_kind {
            TYPE_NONE => "",
            TYPE_TEXT => &input[range(spec.ty)],
            TYPE_LOWER_HEX => "x",
            TYPE_UPPER_HEX => "X",
            TYPE_DEBUG => "?",
            other => panic!("a type with the tag {other}"),
        },
        ty_span: maybe(spec.has_ty_span, spec.ty_span),
    }
}

fn error(texts: &[u8], fault: &Fault) -> ParseError {
    let text = |at: Range<usize>| String::from_utf8(texts[at].to_vec()).expect("a text");
    let at = range(fault.suggestion_span);
    ParseError {
        description: text(range(fault.description)),
        note: maybe(fault.has_note, fault.note).map(text),
        label: text(range(fault.label)),
        span: range(fault.span),
        secondary_label: maybe(fault.has_second_label, fault.second_label)
            .map(|it| (text(it), range(fault.second_span))),
        suggestion: match fault.suggestion {
            MEND_NONE => Suggestion::None,
            MEND_USE_POSITIONAL => Suggestion::UsePositional,
            MEND_REMOVE_RAW_IDENT => Suggestion::RemoveRawIdent(at),
            MEND_REORDER_FORMAT_PARAMETER => {
                Suggestion::ReorderFormatParameter(at, text(range(fault.suggestion_text)))
            }
            MEND_ADD_MISSING_COLON => Suggestion::AddMissingColon(at),
            MEND_USE_RUST_DEBUG_PRINTING_MACRO => Suggestion::UseRustDebugPrintingMacro,
            other => panic!("a fault with the tag {other}"),
        },
    }
}

/// Reads a case twice: without any room, and with as much as the answer then counts.
fn read(case: &Case, peeks: bool) -> Buffers {
    let options = Options {
        mode: [MODE_FORMAT, MODE_INLINE_ASM, MODE_DIAGNOSTIC, MODE_DIAGNOSTIC_NAMED][case.mode],
        is_raw: case.style.is_some().into(),
        hashes: case.style.unwrap_or(0),
        has_snippet: case.snippet.is_some().into(),
        appended_newline: case.newline.into(),
    };
    let snippet = case.snippet.as_deref().unwrap_or("");
    let mut buffers = Buffers::with_room(blank(), 0);
    assert_eq!(buffers.read(&case.input, snippet, &options), SHORT, "no room for {case:?}");
    let answer = buffers.records().answer;
    buffers = Buffers::with_room(answer, if peeks { answer.steps } else { 0 });
    assert_eq!(buffers.read(&case.input, snippet, &options), DONE, "room for {case:?}");
    buffers
}

/// Compares the readings of a case, before each call and up to two calls after the end, with fields
/// written in between. Returns the number of faults.
fn compare(case: &Case, random: &mut Random) -> usize {
    same_as_its_literal(case);
    let has_peeks = random.one_in(2);
    let buffers = read(case, has_peeks);
    let Records { steps, specs, faults, texts, lines, peeks, answer } = buffers.records();
    let (fronts, backs) = faults.split_at(answer.front_faults);
    assert!(fronts.windows(2).all(|two| two[0].step >= two[1].step), "fronts of {case:?}");
    assert!(backs.windows(2).all(|two| two[0].step <= two[1].step), "backs of {case:?}");
    let mut parser = ours::parser(case);
    assert_eq!(answer.is_source_literal != 0, parser.is_source_literal, "literal of {case:?}");
    let mut last: Step = blank();
    let (mut places, mut known_lines) = (vec![], vec![]);
    // by how much implicit numbers are higher, and from which step on faults are kept
    let (mut more, mut since) = (0, 0);
    let end = steps.len() - 1;
    for number in 0..=end + 3 {
        let rest = &case.input[last.offset..];
        let mut rest = rest.char_indices().map(|(at, c)| (last.offset + at, c));
        let seen = [parser.peek(), parser.peek_ahead()]
            .map(|peek| peek.map(|(place, at, c)| (place, (at, c))).unzip());
        for (_, next) in &seen {
            assert_eq!(rest.next(), *next, "peek {number} of {case:?}");
        }
        if has_peeks {
            let it = peeks[number.min(end)];
            let told = [maybe(it.has_peek, it.peek), maybe(it.has_peek_ahead, it.peek_ahead)];
            assert_eq!(told, seen.map(|(place, _)| place), "peek {number} of {case:?}");
        }
        assert_eq!(parser.curarg, last.next_index.wrapping_add(more), "curarg {number} of {case:?}");
        assert_eq!(parser.arg_places, places, "arg_places {number} of {case:?}");
        assert_eq!(parser.line_spans, known_lines, "line_spans {number} of {case:?}");
        let is_kept = |it: &&Fault| since <= it.step && it.step < number;
        let told: Vec<_> = faults.iter().filter(is_kept).map(|it| error(texts, it)).collect();
        let [told, seen] = [&told, &parser.errors].map(|it| it.iter().map(ours::error));
        assert!(told.eq(seen), "errors {number} of {case:?}");
        match random.below(24) {
            0 => (parser.curarg, more) = (7, 7_usize.wrapping_sub(last.next_index)),
            1 => (parser.errors, since) = (vec![], number),
            2 if random.one_in(8) => parser.is_source_literal = false,
            _ => {}
        }
        let step = steps[number.min(end)];
        let pieces = [piece(&case.input, &step, specs, more), parser.next()];
        assert_eq!(pieces[0], pieces[1], "piece {number} of {case:?}");
        let texts = pieces.map(|piece| ours::places(&case.input, &piece));
        assert_eq!(texts[0], texts[1], "places of the texts of piece {number} of {case:?}");
        if parser.is_source_literal && number <= end {
            places.extend(maybe(step.has_place, step.place));
            known_lines.extend(lines[known_lines.len()..step.lines].iter().map(|it| range(*it)));
        }
        last = step;
    }
    faults.len()
}

fn main() {
    let word = |at| std::env::args().nth(at).and_then(|word| word.parse().ok());
    let (seed, count) = (word(1).expect("a seed"), word(2).expect("a count"));
    let mut random = Random::new(seed);
    let mut faults = 0;
    for _ in 0..count {
        faults += compare(&case(&mut random, 4), &mut random);
        faults += compare(&literal(&mut random), &mut random);
    }
    println!("seed {seed}: {count} inputs and {count} literals with {faults} faults: all agree");
}
