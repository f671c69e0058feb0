//! The call of `dephungo.h` over the crate for Rust, for hosts on which the proved library does not
//! run: `cargo build --release` makes `libdephungo_c.a` and a shared library. It writes the same records,
//! and never returns `NO_MEMORY`: a failed allocation aborts. All that is unsafe is in this file.
#![deny(unsafe_op_in_unsafe_fn)]
#[path = "../../../../crates/flat_reading/src/records.rt"]
#[allow(dead_code)]
pub mod records;

use dephungo::faults::{error_of, faults_of};
use dephungo::{AlignCenter, AlignLeft, AlignRight, AlignUnknown, Argument, ArgumentImplicitlyIs};
use dephungo::{ArgumentIs, ArgumentNamed, Count, CountImplied, CountIs, CountIsName, CountIsParam};
use dephungo::{CountIsStar, DebugHex, FormatSpec, ParseError, ParseMode, Parser, Piece, Sign};
use dephungo::Suggestion;
use records::*;
use std::mem::size_of;
use std::ops::Range;

const NOWHERE: Extent = Extent { start: 0, end: 0 };
/// The version, as `DEPHUNGO_VERSION_NUMBER` of the header.
const VERSION: u32 = 3_000;
/// The most bytes of an input, and the most hashes of a raw literal.
const LIMIT: u64 = 1_000_000_000_000;

fn extent(range: &Range<usize>) -> Extent {
    Extent { start: range.start, end: range.end }
}

/// Whether there is a range, and the range.
fn maybe(range: Option<&Range<usize>>) -> (u8, Extent) {
    range.map_or((0, NOWHERE), |it| (1, extent(it)))
}

/// Where a text of an input stands in it, or nowhere if it is another text.
fn place(input: &str, text: &str) -> Option<Range<usize>> {
    let start = (text.as_ptr() as usize).wrapping_sub(input.as_ptr() as usize);
    (start <= input.len() && text.len() <= input.len() - start).then(|| start..start + text.len())
}

fn place_in(input: &str, text: &str) -> Extent {
    place(input, text).as_ref().map_or(NOWHERE, extent)
}

/// A buffer of the caller, and how many records there would be in it if all fitted.
struct Buffer<'b, T> {
    room: &'b mut [T],
    used: usize,
}

impl<T> Buffer<'_, T> {
    fn push(&mut self, record: T) {
        if let Some(place) = self.room.get_mut(self.used) {
            *place = record;
        }
        self.used += 1;
    }

    fn fits(&self) -> bool {
        self.used <= self.room.len()
    }
}

impl Buffer<'_, u8> {
    fn push_text(&mut self, text: &str) -> Extent {
        let start = self.used;
        text.bytes().for_each(|byte| self.push(byte));
        Extent { start, end: self.used }
    }
}

/// The kind, the number, the name and its span of a count.
fn count(input: &str, count: &Count<'_>) -> (u8, usize, Extent, Extent) {
    match count {
        CountImplied => (COUNT_IMPLIED, 0, NOWHERE, NOWHERE),
        CountIs(n) => (COUNT_IS, usize::from(*n), NOWHERE, NOWHERE),
        CountIsName(name, span) => (COUNT_IS_NAME, 0, place_in(input, name), extent(span)),
        CountIsParam(n) => (COUNT_IS_PARAM, *n, NOWHERE, NOWHERE),
        CountIsStar(n) => (COUNT_IS_STAR, *n, NOWHERE, NOWHERE),
    }
}

fn spec(input: &str, format: &FormatSpec<'_>) -> Spec {
    let (type_kind, ty) = match (format.ty, place(input, format.ty)) {
        ("", _) => (TYPE_NONE, NOWHERE),
        (_, Some(place)) => (TYPE_TEXT, extent(&place)),
        ("x", None) => (TYPE_LOWER_HEX, NOWHERE),
        ("X", None) => (TYPE_UPPER_HEX, NOWHERE),
        (_, None) => (TYPE_DEBUG, NOWHERE),
    };
    let (width_kind, width_number, width_name, width_name_span) = count(input, &format.width);
    let (precision_kind, precision_number, precision_name, precision_name_span) =
        count(input, &format.precision);
    let (has_fill_span, fill_span) = maybe(format.fill_span.as_ref());
    let (has_width_span, width_span) = maybe(format.width_span.as_ref());
    let (has_precision_span, precision_span) = maybe(format.precision_span.as_ref());
    let (has_ty_span, ty_span) = maybe(format.ty_span.as_ref());
    Spec {
        fill: format.fill.map_or(NO_FILL, u32::from),
        align: match format.align {
            AlignUnknown => ALIGN_UNKNOWN,
            AlignLeft => ALIGN_LEFT,
            AlignRight => ALIGN_RIGHT,
            AlignCenter => ALIGN_CENTER,
        },
        sign: match format.sign {
            None => SIGN_NONE,
            Some(Sign::Plus) => SIGN_PLUS,
            Some(Sign::Minus) => SIGN_MINUS,
        },
        debug_hex: match format.debug_hex {
            None => HEX_NONE,
            Some(DebugHex::Lower) => HEX_LOWER,
            Some(DebugHex::Upper) => HEX_UPPER,
        },
        alternate: format.alternate.into(),
        zero_pad: format.zero_pad.into(),
        type_kind,
        width_kind,
        precision_kind,
        has_fill_span,
        has_width_span,
        has_precision_span,
        has_ty_span,
        width_number,
        precision_number,
        width_span,
        precision_span,
        ty,
        ty_span,
        fill_span,
        width_name,
        width_name_span,
        precision_name,
        precision_name_span,
    }
}

/// A step with an argument, and without the state after it.
fn argument(input: &str, argument: &Argument<'_>, specs: &mut Buffer<'_, Spec>) -> Step {
    let (position, number, text) = match argument.position {
        ArgumentImplicitlyIs(n) => (POSITION_IMPLICIT, n, NOWHERE),
        ArgumentIs(n) => (POSITION_INDEX, n, NOWHERE),
        ArgumentNamed(name) => (POSITION_NAMED, 0, place_in(input, name)),
    };
    let is_default = argument.format == FormatSpec::default();
    if !is_default {
        specs.push(spec(input, &argument.format));
    }
    let spec = if is_default { 0 } else { specs.used };
    let position_span = extent(&argument.position_span);
    Step { kind: PIECE_ARGUMENT, position, number, text, position_span, spec, ..blank_step() }
}

fn blank_step() -> Step {
    Step {
        kind: PIECE_NONE,
        position: POSITION_IMPLICIT,
        has_place: 0,
        number: 0,
        text: NOWHERE,
        position_span: NOWHERE,
        spec: 0,
        place: NOWHERE,
        offset: 0,
        next_index: 0,
        lines: 0,
    }
}

fn fault(error: &ParseError, step: usize, texts: &mut Buffer<'_, u8>) -> Fault {
    let mut text = |text: &str| texts.push_text(text);
    let mut maybe_text = |it: Option<&String>| it.map_or((0, NOWHERE), |it| (1, text(it)));
    let second = error.secondary_label.as_ref();
    let (has_note, note) = maybe_text(error.note.as_ref());
    let (has_second_label, second_label) = maybe_text(second.map(|(label, _)| label));
    let (suggestion, suggestion_span, suggestion_text) = match &error.suggestion {
        Suggestion::None => (MEND_NONE, NOWHERE, NOWHERE),
        Suggestion::UsePositional => (MEND_USE_POSITIONAL, NOWHERE, NOWHERE),
        Suggestion::RemoveRawIdent(at) => (MEND_REMOVE_RAW_IDENT, extent(at), NOWHERE),
        Suggestion::ReorderFormatParameter(at, new) => {
            (MEND_REORDER_FORMAT_PARAMETER, extent(at), text(new))
        }
        Suggestion::AddMissingColon(at) => (MEND_ADD_MISSING_COLON, extent(at), NOWHERE),
        Suggestion::UseRustDebugPrintingMacro => {
            (MEND_USE_RUST_DEBUG_PRINTING_MACRO, NOWHERE, NOWHERE)
        }
    };
    Fault {
        has_note,
        has_second_label,
        suggestion,
        description: text(&error.description),
        note,
        label: text(&error.label),
        span: extent(&error.span),
        second_label,
        second_span: second.map_or(NOWHERE, |(_, span)| extent(span)),
        suggestion_span,
        suggestion_text,
        step,
    }
}

/// The places of the next two characters.
fn peek(parser: &Parser<'_>) -> Peek {
    let (has_peek, peek) = maybe(parser.peek().map(|it| it.0).as_ref());
    let (has_peek_ahead, peek_ahead) = maybe(parser.peek_ahead().map(|it| it.0).as_ref());
    Peek { has_peek, has_peek_ahead, peek, peek_ahead }
}

/// An input, how it is read, and its mode.
struct Task<'a> {
    input: &'a str,
    style: Option<usize>,
    snippet: Option<String>,
    mode: ParseMode,
}

/// What is asked for, or the code for what is wrong in it.
fn task<'a>(input: &'a [u8], snippet: &[u8], options: &Options) -> Result<Task<'a>, u32> {
    let mode = match options.mode {
        MODE_FORMAT => ParseMode::Format,
        MODE_INLINE_ASM => ParseMode::InlineAsm,
        MODE_DIAGNOSTIC => ParseMode::Diagnostic,
        MODE_DIAGNOSTIC_NAMED => ParseMode::DiagnosticNamed,
        _ => return Err(NO_SUCH_MODE),
    };
    let input = std::str::from_utf8(input).map_err(|_| NOT_TEXT)?;
    let snippet = match options.has_snippet {
        0 => None,
        _ => Some(std::str::from_utf8(snippet).map_err(|_| SNIPPET_NOT_TEXT)?.to_string()),
    };
    let style = (options.is_raw != 0).then_some(options.hashes);
    if style.unwrap_or(0) as u64 > LIMIT || input.len() as u64 > LIMIT {
        return Err(TOO_LONG);
    }
    Ok(Task { input, style, snippet, mode })
}

/// Reads an input into buffers, as `dephungo_read` does.
#[allow(clippy::too_many_arguments)]
fn read(
    input: &[u8],
    snippet: &[u8],
    options: &Options,
    steps: &mut [Step],
    specs: &mut [Spec],
    faults: &mut [Fault],
    texts: &mut [u8],
    lines: &mut [Extent],
    peeks: &mut [Peek],
    answer: &mut Answer,
) -> u32 {
    let Task { input, style, snippet, mode } = match task(input, snippet, options) {
        Ok(task) => task,
        Err(code) => return code,
    };
    let newline = options.appended_newline != 0;
    let mut found = faults_of(input, style, snippet.clone(), newline, mode).into_iter();
    let mut parser = Parser::new(input, style, snippet, newline, mode);
    let mut steps = Buffer { room: steps, used: 0 };
    let mut specs = Buffer { room: specs, used: 0 };
    let wants_peeks = !peeks.is_empty();
    let mut peeks = Buffer { room: peeks, used: 0 };
    // (the last fault that goes to the front is the first one of the list)
    let (mut fronts, mut backs) = (vec![], vec![]);
    loop {
        if wants_peeks {
            peeks.push(peek(&parser));
        }
        let (is_end, places) = (parser.peek().is_none(), parser.arg_places.len());
        let piece = parser.next();
        for fault in found.by_ref().take(parser.errors.len()) {
            let list = if fault.is_front() { &mut fronts } else { &mut backs };
            list.push((error_of(&fault), steps.used));
        }
        parser.errors.clear();
        let step = match &piece {
            None => blank_step(),
            Some(Piece::Lit(text)) => {
                Step { kind: PIECE_TEXT, text: place_in(input, text), ..blank_step() }
            }
            Some(Piece::NextArgument(it)) => argument(input, it, &mut specs),
        };
        let closed = parser.arg_places.get(places).filter(|_| parser.is_source_literal);
        let (has_place, place) = maybe(closed);
        steps.push(Step {
            has_place,
            place,
            offset: parser.peek().map_or(input.len(), |(_, at, _)| at),
            next_index: parser.curarg,
            lines: parser.line_spans.len(),
            ..step
        });
        if is_end {
            break;
        }
    }
    let mut faults = Buffer { room: faults, used: 0 };
    let mut texts = Buffer { room: texts, used: 0 };
    for (error, step) in fronts.iter().rev().chain(&backs) {
        faults.push(fault(error, *step, &mut texts));
    }
    let mut lines = Buffer { room: lines, used: 0 };
    parser.line_spans.iter().for_each(|it| lines.push(extent(it)));
    *answer = Answer {
        steps: steps.used,
        specs: specs.used,
        faults: faults.used,
        texts: texts.used,
        lines: lines.used,
        front_faults: fronts.len(),
        is_source_literal: parser.is_source_literal.into(),
    };
    let records_fit = steps.fits() && specs.fits() && faults.fits() && texts.fits();
    if records_fit && lines.fits() && peeks.fits() { DONE } else { SHORT }
}

/// The buffers of a call, as `dephungo.h` has them.
#[repr(C)]
pub struct Rooms {
    pub steps: *mut Step,
    pub step_room: usize,
    pub specs: *mut Spec,
    pub spec_room: usize,
    pub faults: *mut Fault,
    pub fault_room: usize,
    pub texts: *mut u8,
    pub text_room: usize,
    pub lines: *mut Extent,
    pub line_room: usize,
    pub peeks: *mut Peek,
    pub peek_room: usize,
}

/// Returns so many records or bytes of the caller's; none if the pointer is null.
///
/// # Safety
///
/// A pointer that is not null points to so many, and nothing writes them while the result is used.
unsafe fn given<'a, T>(start: *const T, count: usize) -> &'a [T] {
    if start.is_null() {
        return &[];
    }
    // SAFETY: the caller promises it.
    unsafe { std::slice::from_raw_parts(start, count) }
}

/// Returns a buffer of the caller's; an empty one if the pointer is null.
///
/// # Safety
///
/// A pointer that is not null points to so many records, and nothing else uses them.
unsafe fn room<'a, T>(start: *mut T, count: usize) -> &'a mut [T] {
    if start.is_null() {
        return &mut [];
    }
    // SAFETY: the caller promises it.
    unsafe { std::slice::from_raw_parts_mut(start, count) }
}

/// Returns the version of this library as one number.
#[no_mangle]
pub extern "C" fn dephungo_version() -> u32 {
    VERSION
}

/// Returns how many bytes a record has here, for one of the header's `RECORD` constants, and 0 for another number.
#[no_mangle]
pub extern "C" fn dephungo_size_of(record: u32) -> usize {
    let sizes = [
        size_of::<Extent>(),
        size_of::<Peek>(),
        size_of::<Options>(),
        size_of::<Spec>(),
        size_of::<Step>(),
        size_of::<Fault>(),
        size_of::<Answer>(),
        size_of::<Rooms>(),
    ];
    sizes.get(record as usize).copied().unwrap_or(0)
}

/// The call that `dephungo.h` describes.
///
/// # Safety
///
/// `options`, `buffers` and `answer` are not null, nor is another pointer whose length or room is not
/// 0. Each points to as much as that says, and what is written overlaps nothing else.
#[no_mangle]
pub unsafe extern "C" fn dephungo_read(
    input: *const u8,
    input_length: usize,
    snippet: *const u8,
    snippet_length: usize,
    options: *const Options,
    buffers: *mut Rooms,
    answer: *mut Answer,
) -> u32 {
    // SAFETY: the caller promises all of it, and records and bytes may hold any numbers.
    unsafe {
        let it = &*buffers;
        read(
            given(input, input_length),
            given(snippet, snippet_length),
            &*options,
            room(it.steps, it.step_room),
            room(it.specs, it.spec_room),
            room(it.faults, it.fault_room),
            room(it.texts, it.text_room),
            room(it.lines, it.line_room),
            room(it.peeks, it.peek_room),
            &mut *answer,
        )
    }
}
