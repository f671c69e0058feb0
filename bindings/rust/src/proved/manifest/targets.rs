//! The editions of targets: the library, programs, tests, benchmarks and examples of a package.

// Extracted from crates/manifest/src/targets.rt by tools/extract: not to be edited.
// That source has the contracts, and is proved. That this text means the same is only tested.

use crate::proved::manifest::settings::package_table;
use crate::proved::manifest::versions::{edition_named, Edition};
use crate::shim::toml::Value;

/// A kind of target of which a package can have several.
#[derive(Clone, Copy)]
struct Kind {
    /// The key of its tables.
    key: &'static str,
    /// The folder in which cargo looks for one that names no path.
    folder: &'static str,
}

const KINDS: [Kind; 4] = [
    Kind {
        key: "bin",
        folder: "src/bin/",
    },
    Kind {
        key: "test",
        folder: "tests/",
    },
    Kind {
        key: "bench",
        folder: "benches/",
    },
    Kind {
        key: "example",
        folder: "examples/",
    },
];

/// The nearness of a target to the file at its path.
const AT_PATH: usize = usize::MAX;

/// Returns how near a target with this path is to a file: the length of its folder, or `None` if
/// the file is not below that.
#[inline(never)]
fn nearness(path: &str, file: &str) -> Option<usize> {
    if path == file {
        return Some(AT_PATH);
    }
    let Some((folder, _)) = path.rsplit_once('/') else {
        return Some(0);
    };
    file.strip_prefix(folder)?.strip_prefix('/')?;
    Some(folder.len().saturating_add(1))
}

/// Returns how near a target is to a file that names no path, and so has `NAME.rs` or
/// `NAME/main.rs` in a folder.
#[inline(never)]
fn default_nearness(folder: &str, name: &str, file: &str) -> Option<usize> {
    let rest = file.strip_prefix(folder)?;
    match rest.strip_prefix(name) {
        Some(".rs" | "/main.rs") => Some(AT_PATH),
        Some(rest) if rest.starts_with('/') => {
            Some(folder.len().saturating_add(name.len()).saturating_add(1))
        }
        _ => Some(folder.len()),
    }
}

/// Returns whether cargo makes a target of the file at this path in the folder of its kind.
#[inline(never)]
fn is_own_target(folder: &str, file: &str) -> bool {
    let Some(rest) = file.strip_prefix(folder) else {
        return false;
    };
    match rest.split_once('/') {
        Some((_, name)) => name == "main.rs",
        None => rest.ends_with(".rs"),
    }
}

/// Returns how near to a file the target is that cargo makes without a table in the manifest.
#[inline(never)]
fn found_nearness(file: &str) -> usize {
    if matches!(file, "src/lib.rs" | "src/main.rs" | "build.rs") {
        return AT_PATH;
    }
    for kind in KINDS {
        if is_own_target(kind.folder, file) {
            return AT_PATH;
        }
    }
    match file.strip_prefix("src/bin/") {
        Some(rest) => match rest.split_once('/') {
            Some((name, _)) => "src/bin//".len().saturating_add(name.len()),
            None => 0,
        },
        None => 0,
    }
}

/// The edition of a file, by the targets that were looked at.
struct Search<'a> {
    file: &'a str,
    /// The edition of the package.
    package: Edition,
    /// The nearness of the nearest target.
    nearness: usize,
    /// The edition of that target, or `None` if it has no table in the manifest.
    edition: Option<Edition>,
}

impl Search<'_> {
    /// Looks at a target. Returns `None` if its edition is unknown.
    #[inline(never)]
    fn add(&mut self, target: &Value, nearness: Option<usize>) -> Option<()> {
        let edition = match target.get("edition") {
            Some(name) => edition_named(name.as_str()?)?,
            None => self.package,
        };
        let Some(nearness) = nearness else {
            return Some(());
        };
        let is_nearer = nearness > self.nearness;
        let is_as_near = nearness == self.nearness;
        if is_nearer || is_as_near && self.edition.map_or(true, |other| edition < other) {
            self.nearness = nearness;
            self.edition = Some(edition);
        }
        Some(())
    }

    /// Looks at a target of a kind. Returns `None` if its edition is unknown.
    #[inline(never)]
    fn add_of_kind(&mut self, kind: Kind, target: &Value, package: Option<&str>) -> Option<()> {
        let path = text_of(target, "path");
        let name = text_of(target, "name").unwrap_or("");
        let nearness = match path {
            Some(path) => nearness(path, self.file),
            None if kind.key == "bin" && self.file == "src/main.rs" && package == Some(name) => {
                Some(AT_PATH)
            }
            None => default_nearness(kind.folder, name, self.file),
        };
        self.add(target, nearness)
    }
}

/// Returns the text at a key, without `./` at its start.
fn text_of<'a>(target: &'a Value, key: &str) -> Option<&'a str> {
    let text = target.get(key)?.as_str()?;
    Some(text.strip_prefix("./").unwrap_or(text))
}

/// Returns the edition of a file of a package, by its path in the package's folder and the edition
/// of the package: that of the target whose path this is, or otherwise of the one in whose folder
/// the file is, the innermost, and of several the oldest edition. Returns `None` if a target has an
/// edition that is unknown.
#[inline(never)]
pub fn target_edition(manifest: &Value, file: &str, package: Edition) -> Option<Edition> {
    let mut search = Search {
        file,
        package,
        nearness: found_nearness(file),
        edition: None,
    };
    let package_name = text_of(package_table(manifest)?, "name");
    if let Some(library) = manifest.get("lib") {
        let path = text_of(library, "path").unwrap_or("src/lib.rs");
        search.add(library, nearness(path, file))?;
    }
    for kind in KINDS {
        if let Some(Value::Array(targets)) = manifest.get(kind.key) {
            for target in targets {
                search.add_of_kind(kind, target, package_name)?;
            }
        }
    }
    Some(search.edition.unwrap_or(package))
}
