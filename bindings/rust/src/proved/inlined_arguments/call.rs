//! Calls, and what inlining makes of one.

// Extracted from crates/inlined_arguments/src/call.rt by tools/extract: not to be edited.
// That source has the contracts, and is proved. That this text means the same is only tested.

use crate::proved::call_faults::FormatString;
use crate::shim::prelude::*;
use core::ops::Range;

/// An argument of a call, after its format string.
#[derive(Clone, Copy)]
pub struct Argument<'a> {
    /// Its name, without the `r#` of a raw identifier, as `a` in `a = 1`.
    pub name: Option<&'a str>,
    /// Its value as it is written, if that is one word, as `x` or `r#type`. `None` if it is any
    /// other expression.
    pub word: Option<&'a str>,
    /// The bytes of the source that goes with it: the comma before it, the argument, and what is
    /// between them.
    pub source: &'a [u8],
}

/// A call of a macro that takes a format string.
#[derive(Clone, Copy)]
pub struct Call<'a> {
    /// The format string. Its snippet is the literal that is edited.
    pub string: FormatString<'a>,
    /// The arguments after it.
    pub arguments: &'a [Argument<'a>],
    /// Whether these are all: no macro repeats some of them or names one.
    pub is_counted: bool,
    /// Whether the string is a format string if no argument follows it. That of `panic!`, `assert!`
    /// and `debug_assert!` is none before the edition 2021.
    pub is_format_alone: bool,
    /// Whether a `const fn` may make the call with one argument and the string `{}`, as it may with
    /// `panic!`, `assert!`, `debug_assert!` and `unreachable!`.
    pub has_const_form: bool,
}

/// An edit of a literal.
#[derive(Debug, PartialEq)]
pub struct Edit {
    /// The bytes of the literal that it replaces: none where text is only inserted.
    pub span: Range<usize>,
    /// The new text.
    pub text: String,
}

/// What inlining makes of a call.
#[derive(Debug, PartialEq)]
pub struct InlinedCall {
    /// The edits of the literal, in the order of the source.
    pub edits: Vec<Edit>,
    /// The literal with these edits.
    pub literal: String,
    /// The indices of the arguments that go, in ascending order. Each goes with its `source`.
    pub removed_indices: Vec<usize>,
}

/// Why a call is left as it is.
#[non_exhaustive]
#[derive(Clone, Copy, Debug, PartialEq, Eq)]
pub enum Obstacle {
    /// How many arguments it has is not known.
    Uncounted,
    /// No argument is a variable.
    NoVariable,
    /// Another argument is no variable, and calls of this kind are to be left.
    Mixed,
    /// Its string captures no variables.
    CapturesNone,
    /// Its string would be no format string without an argument.
    Alone,
    /// A `const fn` may make the call, but not with the variable in the string.
    ConstForm,
    /// A comment would go with an argument.
    Comment,
    /// Something is wrong with it.
    Faulty,
    /// The literal of its string is not known.
    NoLiteral,
    /// With the variables its literal would mean something else, as where an argument that stays
    /// has the name of one of them.
    OtherMeaning,
}
