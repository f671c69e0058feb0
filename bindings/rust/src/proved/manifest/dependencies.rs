//! The crates on which a package depends.

// Extracted from crates/manifest/src/dependencies.rt by tools/extract: not to be edited.
// That source has the contracts, and is proved. That this text means the same is only tested.

use crate::proved::manifest::settings::{is_inherited, workspace_table};
use crate::shim::alloc::AllocError;
use crate::shim::prelude::*;
use crate::shim::toml::Value;

/// The tables of dependencies, also by their old names.
const TABLES: [&str; 5] = [
    "dependencies",
    "dev-dependencies",
    "build-dependencies",
    "dev_dependencies",
    "build_dependencies",
];

/// A crate on which a package depends.
pub struct Dependency {
    /// The name of the crate in the sources, in which `_` stands for `-`.
    pub name: String,
    /// The name of its package.
    pub package: String,
}

/// Returns the name of a crate in the sources.
#[inline(never)]
fn source_name(name: &str) -> Result<String, AllocError> {
    let mut out = String::with_capacity(name.len());
    for c in name.chars() {
        out.push(if c == '-' { '_' } else { c });
    }
    Ok(out)
}

/// Returns the name of the package that a dependency gives, or `None` if that is its own name.
#[inline(never)]
fn package_name<'a>(name: &str, value: &'a Value, workspace: Option<&'a Value>) -> Option<&'a str> {
    if is_inherited(value) {
        let shared = workspace_table(workspace?)?.get("dependencies")?;
        return shared.get(name)?.get("package")?.as_str();
    }
    value.get("package")?.as_str()
}

/// Adds the dependencies of the tables in a value.
#[inline(never)]
fn add(
    value: &Value,
    workspace: Option<&Value>,
    found: &mut Vec<Dependency>,
) -> Result<(), AllocError> {
    for table in TABLES {
        if let Some(Value::Table(members)) = value.get(table) {
            for (name, value) in members {
                let package = package_name(name.as_str(), value, workspace);
                found.push(Dependency {
                    name: source_name(name.as_str())?,
                    package: String::from(package.unwrap_or(name.as_str())),
                });
            }
        }
    }
    Ok(())
}

/// Returns the dependencies of a package on each target, whose workspace has this manifest.
#[inline(never)]
pub fn package_dependencies(
    manifest: &Value,
    workspace: Option<&Value>,
) -> Result<Vec<Dependency>, AllocError> {
    let mut found = Vec::new();
    add(manifest, workspace, &mut found)?;
    if let Some(Value::Table(targets)) = manifest.get("target") {
        for (_, target) in targets {
            add(target, workspace, &mut found)?;
        }
    }
    Ok(found)
}
