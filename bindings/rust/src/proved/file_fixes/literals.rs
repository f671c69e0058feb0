//! The literals in which the faults of a round are, and the edits in these and in the arguments
//! behind them.

// Extracted from crates/file_fixes/src/literals.rt by tools/extract: not to be edited.
// That source has the contracts, and is proved. That this text means the same is only tested.

use crate::proved::fault_fixes::Edit;
use crate::proved::file_fixes::mended::sum;
use crate::proved::file_fixes::round_edits::end_after;
use crate::proved::rust_tokens::{Kind, Token};
use crate::proved::source_report::{are_after, edits_of, Finding};
use crate::shim::alloc::AllocError;

/// Returns whether a kind of token is a string literal, raw or not.
#[inline]
pub(crate) fn is_string(kind: Kind) -> bool {
    matches!(kind, Kind::Str | Kind::RawStr)
}

/// Returns whether a token of a file opens a delimiter.
#[inline(never)]
fn opens(bytes: &[u8], token: &Token) -> bool {
    match bytes.get(token.span.start) {
        Some(byte) => *byte == b'(' || *byte == b'[' || *byte == b'{',
        None => false,
    }
}

/// Returns whether a token of a file closes a delimiter.
#[inline(never)]
fn closes(bytes: &[u8], token: &Token) -> bool {
    match bytes.get(token.span.start) {
        Some(byte) => *byte == b')' || *byte == b']' || *byte == b'}',
        None => false,
    }
}

/// Returns whether one of these tokens ends at an offset, in the same delimiters in which they
/// begin.
#[inline(never)]
fn ends_outside(bytes: &[u8], at: usize, tokens: &[Token]) -> bool {
    let mut depth = 0usize;
    for token in tokens {
        if opens(bytes, token) {
            depth += 1;
            continue;
        }
        if closes(bytes, token) {
            if depth == 0 {
                return false;
            }
            depth -= 1;
        }
        if depth == 0 && token.span.end == at {
            return true;
        }
    }
    false
}

/// Returns whether bytes have this one at an offset.
fn has_byte(bytes: &[u8], at: usize, byte: u8) -> bool {
    match bytes.get(at) {
        Some(found_byte) => *found_byte == byte,
        None => false,
    }
}

/// Returns whether an offset is between the two bytes of a CRLF.
fn is_in_crlf(bytes: &[u8], at: usize) -> bool {
    has_byte(bytes, at.saturating_sub(1), b'\r') && has_byte(bytes, at, b'\n')
}

/// Returns whether an edit lies in a literal, with which the tokens begin, or only puts text in
/// after it or one of its arguments, and cuts no CRLF.
#[inline(never)]
fn is_in_call(bytes: &[u8], literal: &Token, tokens: &[Token], edit: &Edit<'_>) -> bool {
    if is_in_crlf(bytes, edit.span.start) || is_in_crlf(bytes, edit.span.end) {
        return false;
    }
    if literal.span.start <= edit.span.start && edit.span.end <= literal.span.end {
        return true;
    }
    edit.span.start == edit.span.end && ends_outside(bytes, edit.span.start, tokens)
}

/// Returns whether all these edits are such ones.
fn are_in_call(bytes: &[u8], literal: &Token, tokens: &[Token], edits: &[Edit<'_>]) -> bool {
    for edit in edits {
        if !is_in_call(bytes, literal, tokens, edit) {
            return false;
        }
    }
    true
}

/// Returns whether a token is a string literal in which a fault starts.
fn starts_in(token: &Token, finding: &Finding) -> bool {
    is_string(token.kind)
        && token.span.start <= finding.span.start
        && finding.span.start < token.span.end
}

/// Returns whether a fault with these edits is in a literal, with which the tokens begin, and its
/// edits are there or in the arguments behind it.
fn is_of_literal(
    bytes: &[u8],
    literal: &Token,
    tokens: &[Token],
    finding: &Finding,
    edits: &[Edit<'_>],
) -> bool {
    starts_in(literal, finding)
        && finding.span.end <= literal.span.end
        && are_in_call(bytes, literal, tokens, edits)
}

/// Returns the index of the literal, from the index `from` on, of a fault with these
/// edits, or `None` if there is none.
#[inline(never)]
fn literal_index(
    bytes: &[u8],
    tokens: &[Token],
    from: usize,
    finding: &Finding,
    edits: &[Edit<'_>],
) -> Option<usize> {
    let mut index = from;
    while let Some(token) = tokens.get(index) {
        if is_of_literal(bytes, token, &tokens[index..], finding, edits) {
            return Some(index);
        }
        index += 1;
    }
    None
}

/// The literals of the first faults that a round mends.
#[derive(Clone, Copy)]
struct LiteralsBehind {
    /// How many they are.
    count: usize,
    /// The index of the last of them, or 0 if there is none.
    index: usize,
    /// Where the last edit of these faults ends, or 0 if there is none.
    at: usize,
}

/// Returns how many literals there are with the one of this index, which is the last of them or one
/// ahead. Returns `Err` if no memory has so many.
fn count_with(literals: LiteralsBehind, index: usize) -> Result<usize, AllocError> {
    if literals.count == 0 || index != literals.index {
        return sum(literals.count, 1);
    }
    Ok(literals.count)
}

/// Returns these literals with that of one fault more, if the fault is mended. Returns `None` if no
/// literal ahead has it and its edits in its call, and `Err` if an allocation fails.
#[inline(never)]
fn literal_of(
    text: &str,
    tokens: &[Token],
    from: LiteralsBehind,
    finding: &Finding,
) -> Result<Option<LiteralsBehind>, AllocError> {
    let edits = edits_of(finding)?;
    let list = edits.as_slice();
    if list.is_empty() || !are_after(from.at, list) {
        return Ok(Some(from));
    }
    let Some(index) = literal_index(text.as_bytes(), tokens, from.index, finding, list) else {
        return Ok(None);
    };
    Ok(Some(LiteralsBehind {
        count: count_with(from, index)?,
        index,
        at: end_after(from.at, list),
    }))
}

/// Returns in how many string literals of a file with these tokens the faults are that a round
/// mends. Returns `None` if they are not in literals, one after the other, or one has not its edits
/// in the call of its literal.
#[inline(never)]
pub(crate) fn mended_literals(
    text: &str,
    tokens: &[Token],
    findings: &[Finding],
) -> Result<Option<usize>, AllocError> {
    let mut literals = LiteralsBehind {
        count: 0,
        index: 0,
        at: 0,
    };
    for finding in findings {
        let Some(more) = literal_of(text, tokens, literals, finding)? else {
            return Ok(None);
        };
        literals = more;
    }
    Ok(Some(literals.count))
}
