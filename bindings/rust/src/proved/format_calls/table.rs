//! Macros that take a format string.

// Extracted from crates/format_calls/src/table.rt by tools/extract: not to be edited.
// That source has the contracts, and is proved. That this text means the same is only tested.

use crate::shim::alloc::AllocError;
use crate::shim::prelude::*;

/// The rule for the argument of a macro that is its format string. The arguments after it are
/// formatted.
#[derive(Clone, Copy, Debug, Eq, PartialEq)]
pub enum Rule {
    /// The argument with this index.
    Index(usize),
    /// The argument with this index. Before the edition 2021 it is any expression if it is the
    /// last.
    IndexByEdition(usize),
    /// The first argument that is a string literal: fields may stand before it.
    FirstLiteral,
    /// The first argument, and the string literals that follow it, are templates of inline
    /// assembly. Operands follow.
    Templates,
}

/// A macro of a table.
#[derive(Clone, Copy, Debug, Eq, PartialEq)]
pub struct Row<'a> {
    /// Its name.
    pub name: &'a str,
    /// Its rule.
    pub rule: Rule,
}

/// A table of macros. Of several macros with one name the first counts.
#[derive(Clone, Debug, Eq, PartialEq)]
pub struct Table<'a> {
    /// The macros.
    pub rows: Vec<Row<'a>>,
}

/// The macros of the standard library.
const STANDARD: [Row<'static>; 23] = [
    Row {
        name: "format",
        rule: Rule::Index(0),
    },
    Row {
        name: "format_args",
        rule: Rule::Index(0),
    },
    Row {
        name: "print",
        rule: Rule::Index(0),
    },
    Row {
        name: "println",
        rule: Rule::Index(0),
    },
    Row {
        name: "eprint",
        rule: Rule::Index(0),
    },
    Row {
        name: "eprintln",
        rule: Rule::Index(0),
    },
    Row {
        name: "write",
        rule: Rule::Index(1),
    },
    Row {
        name: "writeln",
        rule: Rule::Index(1),
    },
    Row {
        name: "panic",
        rule: Rule::IndexByEdition(0),
    },
    Row {
        name: "unreachable",
        rule: Rule::IndexByEdition(0),
    },
    Row {
        name: "todo",
        rule: Rule::Index(0),
    },
    Row {
        name: "unimplemented",
        rule: Rule::Index(0),
    },
    Row {
        name: "assert",
        rule: Rule::IndexByEdition(1),
    },
    Row {
        name: "debug_assert",
        rule: Rule::IndexByEdition(1),
    },
    Row {
        name: "assert_eq",
        rule: Rule::Index(2),
    },
    Row {
        name: "assert_ne",
        rule: Rule::Index(2),
    },
    Row {
        name: "debug_assert_eq",
        rule: Rule::Index(2),
    },
    Row {
        name: "debug_assert_ne",
        rule: Rule::Index(2),
    },
    Row {
        name: "assert_matches",
        rule: Rule::Index(2),
    },
    Row {
        name: "debug_assert_matches",
        rule: Rule::Index(2),
    },
    Row {
        name: "asm",
        rule: Rule::Templates,
    },
    Row {
        name: "global_asm",
        rule: Rule::Templates,
    },
    Row {
        name: "naked_asm",
        rule: Rule::Templates,
    },
];

/// Macros of the crates log, tracing, slog, anyhow and eyre.
const CRATES: [Row<'static>; 13] = [
    Row {
        name: "error",
        rule: Rule::FirstLiteral,
    },
    Row {
        name: "warn",
        rule: Rule::FirstLiteral,
    },
    Row {
        name: "info",
        rule: Rule::FirstLiteral,
    },
    Row {
        name: "debug",
        rule: Rule::FirstLiteral,
    },
    Row {
        name: "trace",
        rule: Rule::FirstLiteral,
    },
    Row {
        name: "crit",
        rule: Rule::FirstLiteral,
    },
    Row {
        name: "log",
        rule: Rule::FirstLiteral,
    },
    Row {
        name: "event",
        rule: Rule::FirstLiteral,
    },
    Row {
        name: "anyhow",
        rule: Rule::Index(0),
    },
    Row {
        name: "eyre",
        rule: Rule::Index(0),
    },
    Row {
        name: "format_err",
        rule: Rule::Index(0),
    },
    Row {
        name: "bail",
        rule: Rule::Index(0),
    },
    Row {
        name: "ensure",
        rule: Rule::Index(1),
    },
];

/// Adds rows to the end of a list.
fn push_rows<'a>(rows: &mut Vec<Row<'a>>, new_rows: &[Row<'static>]) -> Result<(), AllocError> {
    for row in new_rows {
        rows.push(*row);
    }
    Ok(())
}

impl<'a> Table<'a> {
    /// Returns the macros of the standard library.
    pub(crate) fn standard() -> Result<Self, AllocError> {
        let mut rows = Vec::new();
        push_rows(&mut rows, STANDARD.as_slice())?;
        Ok(Table { rows })
    }

    /// Returns macros of the crates log, tracing, slog, anyhow and eyre.
    pub(crate) fn with_crate_macros() -> Result<Self, AllocError> {
        let mut rows = Vec::new();
        push_rows(&mut rows, CRATES.as_slice())?;
        Ok(Table { rows })
    }

    /// Adds a macro before the others.
    #[inline]
    pub(crate) fn add(&mut self, row: Row<'a>) -> Result<(), AllocError> {
        self.rows.insert(0, row);
        Ok(())
    }
}

/// Returns the rule of the first macro of this name, or `None` if there is none.
pub fn rule_of(rows: &[Row<'_>], word: &[u8]) -> Option<Rule> {
    for row in rows {
        if row.name.as_bytes() == word {
            return Some(row.rule);
        }
    }
    None
}

/// Returns whether a macro of this name is one of the standard library that takes a format string.
#[inline]
pub fn is_standard(word: &[u8]) -> bool {
    rule_of(&STANDARD, word).is_some()
}

/// Returns whether a macro of this name is one of log, tracing, slog, anyhow or eyre.
#[inline]
pub fn is_of_crates(word: &[u8]) -> bool {
    rule_of(&CRATES, word).is_some()
}
