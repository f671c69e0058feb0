//! The ids of faults.

// Extracted from crates/rustc_parse_format/src/fault_ids.rt by tools/extract: not to be edited.
// That source has the contracts, and is proved. That this text means the same is only tested.

use crate::proved::rustc_parse_format::faults::Fault;

/// Returns the id of a fault.
#[inline]
fn id_of(fault: &Fault<'_>) -> &'static str {
    match fault {
        Fault::UnmatchedBrace(_) => "unmatched-closing-brace",
        Fault::MissingBrace(..) => "missing-closing-brace",
        Fault::FillBrace(..) => "closing-brace-as-fill",
        Fault::Underscore(_) => "underscore-as-name",
        Fault::TooLarge(..) => "integer-too-large",
        Fault::Unnamed(_) => "unnamed-argument",
        Fault::TextAfterColon(_) => "text-after-colon",
        Fault::RawIdentifier(..) => "raw-identifier",
        Fault::LateFlag(..) => "flag-after-type",
        Fault::MissingColon(_) => "missing-colon",
        Fault::LateDebug(..) => "debug-before-colon",
        Fault::LateAlign(..) => "alignment-before-colon",
        Fault::Grouping(..) => "numeric-grouping",
        Fault::DebugPrint(..) => "debug-equals",
        Fault::LateSign(_) => "sign-before-colon",
        Fault::FieldAccess(_) => "field-access",
        Fault::TupleIndex(_) => "tuple-index",
    }
}

impl Fault<'_> {
    /// Returns the id of the fault in kebab case, such as `missing-closing-brace`: the same for all
    /// faults of a kind, and another for each kind. Does not allocate.
    #[inline]
    pub fn id(&self) -> &'static str {
        id_of(self)
    }
}
