//! The kinds of the faults of a string.

// Extracted from crates/text_diagnostics/src/ids.rt by tools/extract: not to be edited.
// That source has the contracts, and is proved. That this text means the same is only tested.

use crate::proved::diagnostic::Id;
use crate::proved::rustc_parse_format::Fault;

/// Returns the kind of a fault, whose name is the `id` of the fault. Does not allocate.
#[inline(never)]
pub fn id_of(fault: &Fault<'_>) -> Id {
    match fault {
        Fault::UnmatchedBrace(_) => Id::UnmatchedClosingBrace,
        Fault::MissingBrace(..) => Id::MissingClosingBrace,
        Fault::FillBrace(..) => Id::ClosingBraceAsFill,
        Fault::Underscore(_) => Id::UnderscoreAsName,
        Fault::TooLarge(..) => Id::IntegerTooLarge,
        Fault::Unnamed(_) => Id::UnnamedArgument,
        Fault::TextAfterColon(_) => Id::TextAfterColon,
        Fault::RawIdentifier(..) => Id::RawIdentifier,
        Fault::LateFlag(..) => Id::FlagAfterType,
        Fault::MissingColon(_) => Id::MissingColon,
        Fault::LateDebug(..) => Id::DebugBeforeColon,
        Fault::LateAlign(..) => Id::AlignmentBeforeColon,
        Fault::Grouping(..) => Id::NumericGrouping,
        Fault::DebugPrint(..) => Id::DebugEquals,
        Fault::LateSign(_) => Id::SignBeforeColon,
        Fault::FieldAccess(_) => Id::FieldAccess,
        Fault::TupleIndex(_) => Id::TupleIndex,
    }
}
