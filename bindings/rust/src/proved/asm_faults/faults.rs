//! The faults of a call with templates, as plain data.

// Extracted from crates/asm_faults/src/faults.rt by tools/extract: not to be edited.
// That source has the contracts, and is proved. That this text means the same is only tested.

use crate::proved::rustc_parse_format::Fault;
use crate::shim::prelude::*;

/// A place in the source of a call, which is a byte range there. An operand and a template are
/// named by their index among all that are given.
#[derive(Clone, Copy, Debug, PartialEq)]
pub enum AsmSpot {
    /// An operand, from its name on if it has one.
    Operand(usize),
    /// The literal of a template.
    Template(usize),
    /// These bytes of the literal of a template, as the spans of the parser count them.
    Bytes {
        /// The index of the template.
        template: usize,
        /// The offset of the first byte.
        start: usize,
        /// The offset after the last byte.
        end: usize,
    },
}

/// A fault of a call. An operand and a template are named by their index among all that are given.
pub enum AsmFault<'a> {
    /// An operand without a name and without a register of its own stands after one that has one
    /// of them.
    PositionalAfter {
        /// The operand.
        operand: usize,
        /// The first sixteen operands in front of it that have a name, and then the first sixteen
        /// that have a register of their own.
        earlier_operands: Vec<usize>,
    },
    /// An operand has the name of an earlier one. Placeholders mean it by its index alone.
    RepeatedName {
        /// The operand.
        operand: usize,
        /// The first operand with the name.
        first_operand: usize,
    },
    /// An operand with a register of its own has a name.
    RegisterName {
        /// The operand.
        operand: usize,
    },
    /// A placeholder refers by an index to no operand, or to one with a name or a register of its
    /// own.
    WrongIndex {
        /// The placeholder.
        spot: AsmSpot,
        /// The index.
        index: usize,
        /// The number of operands that have neither a name nor a register of their own.
        positional_count: usize,
    },
    /// A placeholder refers to a name that no operand has.
    MissingName {
        /// The name in the placeholder.
        spot: AsmSpot,
        /// The name.
        name: &'a str,
    },
    /// A placeholder has a modifier of several characters.
    LongModifier {
        /// The modifier.
        spot: AsmSpot,
    },
    /// A template is not in the grammar. No other fault follows.
    Text {
        /// The index of the template.
        template: usize,
        /// The fault that rustc shows of it.
        fault: Fault<'a>,
    },
    /// The operands that no placeholder refers to, one or more. One with a register of its own is
    /// none of them.
    UnusedOperands(Vec<usize>),
}
