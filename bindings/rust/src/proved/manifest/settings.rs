//! The keys of a package that it can take over from its workspace.

// Extracted from crates/manifest/src/settings.rt by tools/extract: not to be edited.
// That source has the contracts, and is proved. That this text means the same is only tested.

use crate::shim::toml::Value;

/// The value that a manifest gives a key of its package.
#[derive(Clone, Copy, PartialEq)]
pub enum Setting<'a> {
    /// The key is absent.
    Absent,
    /// The value is this text.
    Text(&'a str),
    /// The value is that of the workspace: `KEY.workspace = true`.
    Inherited,
    /// The value is another one, which cargo refuses.
    Unknown,
}

/// Returns the table of the package, or `None` if the manifest is of no package. Its old name is
/// `project`.
pub fn package_table(manifest: &Value) -> Option<&Value> {
    match manifest.get("package") {
        Some(table) => Some(table),
        None => manifest.get("project"),
    }
}

/// Returns the table of the workspace, or `None` if the manifest is no root of one.
#[inline]
pub fn workspace_table(manifest: &Value) -> Option<&Value> {
    manifest.get("workspace")
}

/// Returns whether a value is a table that says that another value is in the workspace's manifest.
pub(crate) fn is_inherited(value: &Value) -> bool {
    match value.get("workspace") {
        Some(value) => value.as_bool() == Some(true),
        None => false,
    }
}

/// Returns the setting that a value is, or that there is none.
#[inline(never)]
pub(crate) fn setting_of(value: Option<&Value>) -> Setting<'_> {
    match value {
        None => Setting::Absent,
        Some(Value::String(text)) => Setting::Text(text.as_str()),
        Some(value) if is_inherited(value) => Setting::Inherited,
        Some(_) => Setting::Unknown,
    }
}

/// Returns the setting of a key of the package.
pub fn package_setting<'a>(manifest: &'a Value, key: &str) -> Setting<'a> {
    match package_table(manifest) {
        Some(table) => setting_of(table.get(key)),
        None => Setting::Absent,
    }
}

/// Returns the setting that a workspace gives its packages for a key.
#[inline(never)]
pub(crate) fn workspace_setting<'a>(manifest: &'a Value, key: &str) -> Setting<'a> {
    let Some(workspace) = workspace_table(manifest) else {
        return Setting::Absent;
    };
    match workspace.get("package") {
        Some(table) => setting_of(table.get(key)),
        None => Setting::Absent,
    }
}
