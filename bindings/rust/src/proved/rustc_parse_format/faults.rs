//! The faults of an input, as they are found.

// Extracted from crates/rustc_parse_format/src/faults.rt by tools/extract: not to be edited.
// That source has the contracts, and is proved. That this text means the same is only tested.

use crate::shim::alloc::AllocError;
use crate::shim::prelude::*;
use core::mem;
use core::ops::Range;

/// A fault of an input as plain data, of which a parser makes an error. The ranges are byte ranges
/// of the source.
#[non_exhaustive]
#[derive(Clone, Debug, Eq, PartialEq)]
pub enum Fault<'input> {
    /// A closing brace that closes nothing.
    UnmatchedBrace(Range<usize>),
    /// A missing closing brace: the character in its place, if any, the empty range before that
    /// character, and the range of the opening brace.
    MissingBrace(Option<char>, Range<usize>, Range<usize>),
    /// A missing closing brace after the fill `}`: the character in its place, if any, the empty
    /// range before that character, and the range of the fill.
    FillBrace(Option<char>, Range<usize>, Range<usize>),
    /// The word `_` in place of a name.
    Underscore(Range<usize>),
    /// A number above 65535: its digits, and a range that includes the character after them.
    TooLarge(&'input str, Range<usize>),
    /// A position that is not a name, in a mode that allows only names.
    Unnamed(Range<usize>),
    /// Text after a colon, in a mode that allows only names.
    TextAfterColon(Range<usize>),
    /// A raw identifier: its range, and the range of its prefix `r#`.
    RawIdentifier(Range<usize>, Range<usize>),
    /// A flag after the type `?`: the flag, its range, and the range of the `?` with the flag.
    LateFlag(char, Range<usize>, Range<usize>),
    /// A `?` in place of a closing brace and directly before one.
    MissingColon(Range<usize>),
    /// A `?:` in place of a closing brace: the word after it, and the range of the `?`.
    LateDebug(&'input str, Range<usize>),
    /// An alignment in place of a closing brace: the character `<`, `>` or `^`, and its range.
    LateAlign(char, Range<usize>),
    /// A `,` in place of a closing brace: its range, and the range of the opening brace.
    Grouping(Range<usize>, Range<usize>),
    /// A `=` in place of a closing brace and directly before one: its range, and the range of the
    /// opening brace.
    DebugPrint(Range<usize>, Range<usize>),
    /// A `+` in place of a closing brace.
    LateSign(Range<usize>),
    /// An argument and a field of it that is a name, as in `a.b`.
    FieldAccess(Range<usize>),
    /// An argument and a field of it that is a number, as in `a.0`.
    TupleIndex(Range<usize>),
}

impl Fault<'_> {
    /// Returns whether the error of the fault comes before all earlier errors of a parser. If not,
    /// it comes after them.
    #[inline]
    pub fn is_front(&self) -> bool {
        match self {
            Fault::UnmatchedBrace(_)
            | Fault::MissingBrace(..)
            | Fault::FillBrace(..)
            | Fault::Underscore(_)
            | Fault::TooLarge(..)
            | Fault::Unnamed(_)
            | Fault::TextAfterColon(_) => false,
            Fault::RawIdentifier(..) | Fault::LateFlag(..) => true,
            Fault::MissingColon(_)
            | Fault::LateDebug(..)
            | Fault::LateAlign(..)
            | Fault::Grouping(..)
            | Fault::DebugPrint(..)
            | Fault::LateSign(_)
            | Fault::FieldAccess(_)
            | Fault::TupleIndex(_) => true,
        }
    }
}

/// The faults of a call, in the order in which they were found. The first two need no allocation:
/// most calls with a fault find one, or a missing brace and the fault of the character in its
/// place.
pub struct Faults<'input> {
    first: Option<Fault<'input>>,
    second: Option<Fault<'input>>,
    rest: Vec<Fault<'input>>,
}

impl<'input> Faults<'input> {
    /// Returns an empty list. Does not allocate.
    #[inline]
    pub(crate) fn new() -> Faults<'input> {
        Faults {
            first: None,
            second: None,
            rest: Vec::new(),
        }
    }

    /// Returns whether there are no faults.
    #[inline]
    pub fn is_empty(&self) -> bool {
        self.first.is_none()
    }

    /// Adds a fault at the end. Returns `Err` if an allocation fails, and the list is then
    /// unchanged. The first two faults need no allocation.
    #[inline]
    pub(crate) fn try_push(&mut self, fault: Fault<'input>) -> Result<(), AllocError> {
        if self.first.is_none() {
            self.first = Some(fault);
        } else if self.second.is_none() {
            self.second = Some(fault);
        } else {
            self.rest.try_push(fault)?;
        }
        Ok(())
    }

    /// Returns the fault at an index, or `None` if the list ends before it.
    #[inline]
    pub fn get(&self, index: usize) -> Option<&Fault<'input>> {
        if index == 0 {
            return self.first.as_ref();
        }
        if index == 1 {
            return self.second.as_ref();
        }
        self.rest.get(index - 2)
    }

    /// Moves all faults to the end of `list`. Returns `Err` if an allocation fails: some of the
    /// faults may then be at the end of `list`, and the others are dropped.
    #[inline]
    pub(crate) fn move_to(&mut self, list: &mut Vec<Fault<'input>>) -> Result<(), AllocError> {
        if self.is_empty() {
            return Ok(());
        }
        let mut faults = mem::replace(self, Faults::new());
        if let Some(first) = faults.first.take() {
            list.try_push(first)?;
        }
        if let Some(second) = faults.second.take() {
            list.try_push(second)?;
        }
        list.append(&mut faults.rest);
        Ok(())
    }

    /// Removes all faults. Does not allocate.
    #[inline]
    pub fn clear(&mut self) {
        self.first = None;
        self.second = None;
        self.rest.clear();
    }
}
