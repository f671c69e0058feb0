//! The faults of a call, as plain data.

// Extracted from crates/call_faults/src/faults.rt by tools/extract: not to be edited.
// That source has the contracts, and is proved. That this text means the same is only tested.

use crate::proved::rustc_parse_format::Fault;
use crate::shim::prelude::*;

/// Which part of a placeholder refers to an argument.
#[derive(Clone, Copy, Debug, PartialEq, Eq)]
pub enum Part {
    /// Its position, as in `{0}`, `{name}` or `{}`.
    Position,
    /// Its precision, as in `{:.0$}`, `{:.name$}` or `{:.*}`.
    Precision,
    /// Its width, as in `{:0$}` or `{:name$}`.
    Width,
}

/// Where a placeholder refers to an argument.
#[derive(Clone, Copy, Debug, PartialEq, Eq)]
pub struct Reference {
    /// The index of the placeholder among the pieces of the format string.
    pub piece: usize,
    /// The part of it.
    pub part: Part,
}

/// A reference by an index that is too large.
#[derive(Clone, Copy, Debug, PartialEq, Eq)]
pub struct InvalidReference {
    /// Where it is.
    pub reference: Reference,
    /// The index.
    pub index: usize,
}

/// A fault of a call. An argument is named by its index among all that are given.
#[non_exhaustive]
#[derive(Clone, Debug, Eq, PartialEq)]
pub enum CallFault<'a> {
    /// An argument without a name stands after one with a name. No other fault follows.
    PositionalAfterNamed {
        /// The first such argument.
        index: usize,
        /// The arguments in front of it that have a name, each the first with its name.
        named_arguments: Vec<usize>,
    },
    /// An argument has the name of an earlier one. It counts no more: indices pass over it.
    RepeatedName {
        /// The argument.
        index: usize,
        /// The first argument with the name.
        first_index: usize,
    },
    /// The format string is not in the grammar. No other fault follows.
    Text(Fault<'a>),
    /// The first reference to a name that no argument has, where no variable is captured.
    MissingName {
        /// The reference.
        reference: Reference,
        /// The name.
        name: &'a str,
    },
    /// A placeholder wants a trait that does not exist.
    UnknownTrait {
        /// The index of the placeholder among the pieces.
        piece: usize,
        /// The type that it has in place of one that names a trait.
        ty: &'a str,
    },
    /// The references by an index that is too large, one or more.
    MissingArguments(Vec<InvalidReference>),
    /// The arguments that no placeholder refers to, one or more.
    UnusedArguments(Vec<usize>),
    /// Those of the arguments that no placeholder refers to, one or more, that are a variable which
    /// the position of a placeholder has as its name. The others are then left out.
    RedundantArguments(Vec<usize>),
    /// An argument with a name is referred to by its index. This is only a warning, and left out if
    /// a name or an argument is missing or unused.
    NameUsedByIndex {
        /// The reference.
        reference: Reference,
        /// The argument.
        index: usize,
    },
}
