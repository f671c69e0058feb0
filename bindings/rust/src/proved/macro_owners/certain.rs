//! Whose macro a name is in a file, and the rows of a table that are certain or likely there.

// Extracted from crates/macro_owners/src/certain.rt by tools/extract: not to be edited.
// That source has the contracts, and is proved. That this text means the same is only tested.

use crate::proved::format_calls::{Row, Table};
use crate::proved::macro_owners::facts::Facts;
use crate::proved::macro_owners::names::{
    is_error_name, is_log_name, is_prelude, is_std_alone, kept_name,
};
use crate::shim::alloc::AllocError;
use crate::shim::prelude::*;
use alloc::collections::BTreeSet;

/// Returns whether a set has a name.
#[inline]
fn has(names: &BTreeSet<&'static [u8]>, name: &'static [u8]) -> bool {
    names.contains(&name)
}

/// Returns whether files give a name in another way than its owner, or every name.
fn gives(facts: &Facts, name: &'static [u8]) -> bool {
    has(&facts.given, name) || has(&facts.given, b"$")
}

/// Returns whether nothing in a package gives a name but its owner.
fn is_free(package_facts: &Facts, file_facts: &Facts, name: &'static [u8]) -> bool {
    !(gives(package_facts, name) || gives(file_facts, name) || has(&file_facts.spoiled, name))
}

/// Returns whether a file takes a name from what is called std, and may be something else.
fn may_miss_std(package_facts: &Facts, file_facts: &Facts, name: &'static [u8]) -> bool {
    let given = &package_facts.given;
    let is_std_given = has(given, b"std") || has(given, b"core") || has(given, b"alloc");
    is_std_given && (has(&package_facts.imported, name) || has(&file_facts.imported, name))
}

/// Returns whether files have a glob of another crate.
fn has_glob(facts: &Facts) -> bool {
    has(&facts.given, b"*") || has(&facts.given, b"defmt")
}

/// Returns whether a macro of the prelude of std is that one.
fn is_std(package_facts: &Facts, file_facts: &Facts, name: &'static [u8]) -> bool {
    let may_glob_give =
        is_std_alone(name) && has(&package_facts.given, b"no_std") && has_glob(package_facts);
    is_free(package_facts, file_facts, name)
        && !(may_miss_std(package_facts, file_facts, name) || may_glob_give)
}

/// Returns whether no glob gives a name in a file that its package imports.
fn hides_globs(package_facts: &Facts, file_facts: &Facts, name: &'static [u8]) -> bool {
    if !has_glob(package_facts) {
        return true;
    }
    has(&file_facts.imported, name) && !has_glob(file_facts) && !has(&file_facts.given, b"crate")
}

/// Returns whether a file of a package uses all macros of a crate that owns a name.
fn is_used(package_facts: &Facts, name: &'static [u8]) -> bool {
    let used = &package_facts.used;
    if is_log_name(name) {
        has(used, b"log") || has(used, b"tracing") || has(used, b"slog")
    } else if is_error_name(name) {
        has(used, b"anyhow")
            || has(used, b"eyre")
            || has(used, b"color_eyre")
            || has(used, b"failure")
    } else {
        false
    }
}

/// Returns whether no file of a package gives the name of a crate that owns macros of logs or of
/// errors.
fn lacks_owners(package_facts: &Facts) -> bool {
    let given = &package_facts.given;
    !(has(given, b"std")
        || has(given, b"core")
        || has(given, b"alloc")
        || has(given, b"log")
        || has(given, b"tracing")
        || has(given, b"slog")
        || has(given, b"anyhow")
        || has(given, b"eyre")
        || has(given, b"color_eyre")
        || has(given, b"failure"))
}

/// Returns whether a macro of a crate is its owner's.
fn is_of_crate(package_facts: &Facts, file_facts: &Facts, name: &'static [u8]) -> bool {
    if !is_free(package_facts, file_facts, name) || !lacks_owners(package_facts) {
        return false;
    }
    let is_owned = is_used(package_facts, name) || has(&package_facts.imported, name);
    is_owned && hides_globs(package_facts, file_facts, name)
}

/// Returns whether a call of this name in a file of a package is for certain one of the macro that
/// tables mean. A name of which they know nothing is the user's.
pub fn is_certain(package_facts: &Facts, file_facts: &Facts, name: &[u8]) -> bool {
    let Some(name) = kept_name(name) else {
        return true;
    };
    if is_prelude(name) {
        is_std(package_facts, file_facts, name)
    } else {
        is_of_crate(package_facts, file_facts, name)
    }
}

/// Returns whether a file gives the name of a crate of macros for logs to something else, or has a
/// glob of `defmt`.
fn gives_log_crate(file_facts: &Facts) -> bool {
    let given = &file_facts.given;
    has(given, b"defmt") || has(given, b"log") || has(given, b"tracing") || has(given, b"slog")
}

/// Returns whether no other macro of this name is in sight in a file of a package. It may be
/// another one all the same, where [`is_certain`] is `false`.
fn is_likely(package_facts: &Facts, file_facts: &Facts, name: &[u8]) -> bool {
    let Some(name) = kept_name(name) else {
        return true;
    };
    let is_of_other = is_log_name(name) && gives_log_crate(file_facts);
    !(has(&package_facts.given, name) || has(&file_facts.given, name) || is_of_other)
}

/// Returns whether a call of the macro of a row is one of it: for certain, or likely.
fn is_meant(package_facts: &Facts, file_facts: &Facts, row: &Row<'_>, certainly: bool) -> bool {
    let name = row.name.as_bytes();
    if certainly {
        is_certain(package_facts, file_facts, name)
    } else {
        is_likely(package_facts, file_facts, name)
    }
}

/// Returns those of these rows whose calls in a file of a package are theirs: for certain, or
/// likely.
fn meant_rows<'a>(
    rows: &[Row<'a>],
    package_facts: &Facts,
    file_facts: &Facts,
    certainly: bool,
) -> Result<Vec<Row<'a>>, AllocError> {
    let mut list = Vec::new();
    for row in rows {
        if is_meant(package_facts, file_facts, row, certainly) {
            list.push(*row);
        }
    }
    Ok(list)
}

/// Returns the macros of a table whose calls in a file of a package are for certain theirs.
pub fn certain_table<'a>(
    table: &Table<'a>,
    package_facts: &Facts,
    file_facts: &Facts,
) -> Result<Table<'a>, AllocError> {
    let rows = meant_rows(&table.rows, package_facts, file_facts, true)?;
    Ok(Table { rows })
}

/// Returns the macros of a table of whose names no other macro is in sight in a file of a package.
pub fn likely_table<'a>(
    table: &Table<'a>,
    package_facts: &Facts,
    file_facts: &Facts,
) -> Result<Table<'a>, AllocError> {
    let rows = meant_rows(&table.rows, package_facts, file_facts, false)?;
    Ok(Table { rows })
}
