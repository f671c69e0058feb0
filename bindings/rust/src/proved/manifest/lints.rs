//! The levels of lints.

// Extracted from crates/manifest/src/lints.rt by tools/extract: not to be edited.
// That source has the contracts, and is proved. That this text means the same is only tested.

use crate::proved::manifest::settings::{is_inherited, workspace_table};
use crate::shim::toml::Value;

/// Returns the table of the lints of a package, whose workspace has this manifest, or `None` if
/// there is none.
pub(crate) fn package_lints<'a>(
    manifest: &'a Value,
    workspace: Option<&'a Value>,
) -> Option<&'a Value> {
    let lints = manifest.get("lints")?;
    if is_inherited(lints) {
        return workspace_table(workspace?)?.get("lints");
    }
    Some(lints)
}

/// The level of a lint or a group.
#[derive(Clone, Copy)]
struct Level<'a> {
    name: &'a str,
    /// The order in which levels are set: a later one holds.
    priority: i64,
}

/// Returns the level that a value is, or `None` if it is none.
#[inline(never)]
fn level_of(value: &Value) -> Option<Level<'_>> {
    if let Value::String(name) = value {
        return Some(Level {
            name: name.as_str(),
            priority: 0,
        });
    }
    let priority = match value.get("priority") {
        Some(priority) => priority.as_integer()?,
        None => 0,
    };
    let name = value.get("level")?.as_str()?;
    Some(Level { name, priority })
}

/// Returns whether a table of lints allows a lint, by its own level and those of the groups in
/// which it is: the level of the highest priority holds, and of two with the same priority the one
/// whose name comes first in `names`. cargo sorts the names backwards.
#[inline(never)]
pub(crate) fn is_allowed(lints: &Value, tool: &str, names: &[&str]) -> bool {
    let Some(table) = lints.get(tool) else {
        return false;
    };
    let mut found: Option<Level<'_>> = None;
    for name in names {
        if let Some(value) = table.get(*name) {
            if let Some(level) = level_of(value) {
                if found.map_or(true, |it| level.priority > it.priority) {
                    found = Some(level);
                }
            }
        }
    }
    match found {
        Some(level) => level.name == "allow",
        None => false,
    }
}
