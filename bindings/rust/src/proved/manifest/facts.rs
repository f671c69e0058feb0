//! What the manifest of a package, with that of its workspace, says of all of its files.

// Extracted from crates/manifest/src/facts.rt by tools/extract: not to be edited.
// That source has the contracts, and is proved. That this text means the same is only tested.

use crate::proved::manifest::lints::{is_allowed, package_lints};
use crate::proved::manifest::settings::{package_setting, workspace_setting, Setting};
use crate::proved::manifest::targets::target_edition;
use crate::proved::manifest::versions::{edition_named, version_named, Edition, RustVersion};
use crate::shim::toml::Value;

/// What a manifest says of all files of its package.
#[derive(Clone, Copy)]
pub struct PackageFacts {
    /// The edition, if a target has no other one.
    pub edition: Edition,
    /// The oldest version of Rust that the package supports, or `None` if it names none.
    pub rust_version: Option<RustVersion>,
    /// Whether the lint `clippy::uninlined_format_args` is allowed.
    pub allows_arguments: bool,
    /// Whether the lint `named_arguments_used_positionally` is allowed.
    pub allows_positions: bool,
}

/// A key of a package whose value is none that cargo takes.
#[derive(Clone, Copy)]
pub enum Misfit {
    /// The edition is unknown.
    Edition,
    /// The version of Rust is none.
    RustVersion,
    /// The value is that of the workspace, which has none.
    Workspace,
}

/// Returns the text of a key of a package, which may be that of its workspace, or `None` if the key
/// is absent. Returns `Err` if the value is none, with this reason if it is not the workspace's.
#[inline(never)]
fn text_of<'a>(
    manifest: &'a Value,
    workspace: Option<&'a Value>,
    key: &str,
    reason: Misfit,
) -> Result<Option<&'a str>, Misfit> {
    match package_setting(manifest, key) {
        Setting::Absent => Ok(None),
        Setting::Text(text) => Ok(Some(text)),
        Setting::Unknown => Err(reason),
        Setting::Inherited => {
            let Some(workspace) = workspace else {
                return Err(Misfit::Workspace);
            };
            match workspace_setting(workspace, key) {
                Setting::Text(text) => Ok(Some(text)),
                _ => Err(Misfit::Workspace),
            }
        }
    }
}

/// Returns the edition of a package.
#[inline(never)]
fn edition_of(manifest: &Value, workspace: Option<&Value>) -> Result<Edition, Misfit> {
    match text_of(manifest, workspace, "edition", Misfit::Edition)? {
        None => Ok(Edition::Of2015),
        Some(name) => match edition_named(name) {
            Some(edition) => Ok(edition),
            None => Err(Misfit::Edition),
        },
    }
}

/// Returns the oldest version of Rust that a package supports, or `None` if it names none.
#[inline(never)]
fn version_of(manifest: &Value, workspace: Option<&Value>) -> Result<Option<RustVersion>, Misfit> {
    match text_of(manifest, workspace, "rust-version", Misfit::RustVersion)? {
        None => Ok(None),
        Some(name) => match version_named(name) {
            Some(version) => Ok(Some(version)),
            None => Err(Misfit::RustVersion),
        },
    }
}

/// Returns what a manifest says of its package, whose workspace has this manifest, or the key that
/// has no value that cargo takes.
#[inline(never)]
pub fn package_facts(manifest: &Value, workspace: Option<&Value>) -> Result<PackageFacts, Misfit> {
    let edition = edition_of(manifest, workspace)?;
    // (whichever file it is, the editions of all targets are looked at)
    if target_edition(manifest, "", edition).is_none() {
        return Err(Misfit::Edition);
    }
    let rust_version = version_of(manifest, workspace)?;
    let (allows_arguments, allows_positions) = match package_lints(manifest, workspace) {
        Some(lints) => {
            let allows_warnings = is_allowed(lints, "rust", &["warnings"]);
            (
                allows_warnings
                    || is_allowed(lints, "clippy", &["pedantic", "uninlined_format_args"]),
                allows_warnings
                    || is_allowed(lints, "rust", &["named_arguments_used_positionally"]),
            )
        }
        None => (false, false),
    };
    Ok(PackageFacts {
        edition,
        rust_version,
        allows_arguments,
        allows_positions,
    })
}

/// Returns the version of Rust that a clippy.toml names, or `None` if it names none. Returns `Err`
/// if the name is no version.
#[inline(never)]
pub fn clippy_version(manifest: &Value) -> Result<Option<RustVersion>, Misfit> {
    let Some(value) = manifest.get("msrv") else {
        return Ok(None);
    };
    if let Some(name) = value.as_str() {
        if let Some(version) = version_named(name) {
            return Ok(Some(version));
        }
    }
    Err(Misfit::RustVersion)
}
