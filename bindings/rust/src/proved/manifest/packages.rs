//! The packages of files, and what the project says of each file, by the Cargo.toml and the
//! clippy.toml above it. Each of these is read once.

// Extracted from crates/manifest/src/packages.rt by tools/extract: not to be edited.
// That source has the contracts, and is proved. That this text means the same is only tested.

use crate::shim::prelude::*;
pub(crate) mod folders;
pub(crate) mod reading;

use crate::proved::manifest::dependencies::Dependency;
use crate::proved::manifest::facts::Misfit;
use crate::proved::manifest::targets::target_edition;
use crate::proved::manifest::versions::{edition_named, Edition, RustVersion};
use crate::proved::rust_trees::Place;
use crate::shim::host::fs;
use crate::shim::toml::Value;
use alloc::collections::BTreeMap;
use folders::Folder;
use reading::Found;
use std::io;

/// What the project says of a file.
#[derive(Clone, Copy)]
pub struct FileRules {
    /// The edition.
    pub edition: Edition,
    /// The oldest version of Rust that the package supports, or `None` if it names none.
    pub rust_version: Option<RustVersion>,
    /// Whether the file may be written: its manifests were understood.
    pub may_write: bool,
    /// Whether variables may be moved into format strings: each version of Rust that the package
    /// supports captures them, and the lint about them is not allowed.
    pub may_inline: bool,
    /// Whether a named argument that is used by its index is a warning.
    pub warns_of_positions: bool,
    /// The index of its package for [`Packages::package`], or `None` if it is of none.
    pub package: Option<usize>,
    /// The index of the reason why a manifest was not understood.
    failure: Option<usize>,
}

/// A package.
pub struct Package {
    /// The path of its folder from the root on, without a slash at its end.
    pub folder: String,
    /// The crates on which it depends.
    pub dependencies: Vec<Dependency>,
    /// The index of its manifest, or `None` if that was not understood.
    manifest: Option<usize>,
    /// What the project says of its files.
    rules: FileRules,
}

/// The reason why a manifest was not understood.
pub enum ManifestFault {
    /// The system did not read it.
    System(io::Error),
    /// It is longer than 4 MiB.
    Length,
    /// It is not UTF-8 from this place on.
    Encoding(Place),
    /// It turns out to be no TOML at this place.
    Syntax(Place),
    /// A key has a value that cargo or clippy refuses.
    Misfit(Misfit),
}

/// A manifest that was not understood.
pub struct ManifestFailure {
    /// The path of the manifest.
    pub path: String,
    /// The reason.
    pub fault: ManifestFault,
    /// Whether it was said.
    is_said: bool,
}

/// The packages of files.
pub struct Packages {
    /// The edition of all files, or `None`.
    edition: Option<Edition>,
    /// Whether a clippy.toml is looked for.
    is_inlining: bool,
    /// The manifests that were read.
    manifests: Vec<Value>,
    failures: Vec<ManifestFailure>,
    packages: Vec<Package>,
    /// What became of the Cargo.toml in each folder, by the path of the folder from the root on.
    found: BTreeMap<String, Found>,
    /// What is known of each folder, by its path from the root on.
    folders: BTreeMap<String, Folder>,
    /// The folder that is walked, or `None` if none is.
    walked: Option<WalkedFolder>,
    /// The folder of the last file.
    last_folder: Option<LastFolder>,
}

/// A folder that is walked: the paths of its files begin with its own, and lead through no link.
struct WalkedFolder {
    /// Its path as it was given, without a slash at its end.
    path: String,
    /// Its path from the root on.
    whole_path: String,
}

/// The folder of the last file.
struct LastFolder {
    /// Its path as it was given.
    path: String,
    /// Its path from the root on.
    whole_path: String,
    folder: Folder,
}

/// A path of a file, in two parts.
#[derive(Clone, Copy)]
struct FilePath<'a> {
    folder: &'a str,
    name: &'a str,
}

/// Returns the parts of the path of a file.
#[inline(never)]
fn parts_of(path: &str) -> FilePath<'_> {
    match path.rsplit_once('/') {
        Some(("", name)) => FilePath { folder: "/", name },
        Some((folder, name)) => FilePath { folder, name },
        None => FilePath {
            folder: ".",
            name: path,
        },
    }
}

/// Returns what the project says of files of which nothing is known but this edition.
fn plain_rules(edition: Edition) -> FileRules {
    FileRules {
        edition,
        rust_version: None,
        may_write: true,
        may_inline: true,
        warns_of_positions: true,
        package: None,
        failure: None,
    }
}

impl FileRules {
    /// Notes the index of the reason why a manifest was not understood.
    #[inline]
    fn fail(&mut self, failure: usize) {
        self.may_write = false;
        self.failure = Some(failure);
    }
}

impl Packages {
    /// Returns the packages of files, which all have this edition unless it is `None`. A
    /// clippy.toml is looked for if variables are to be moved into format strings.
    #[inline(never)]
    pub fn new(
        rt: &crate::shim::host::HostRuntime,
        edition: Option<&str>,
        is_inlining: bool,
    ) -> Packages {
        Packages {
            edition: match edition {
                Some(name) => edition_named(name),
                None => None,
            },
            is_inlining,
            manifests: Vec::new(),
            failures: Vec::new(),
            packages: Vec::new(),
            found: BTreeMap::new(),
            folders: BTreeMap::new(),
            walked: None,
            last_folder: None,
        }
    }

    /// Returns the package with an index, or `None` if there is none.
    #[inline]
    pub fn package(&self, index: usize) -> Option<&Package> {
        self.packages.get(index)
    }

    /// Returns the reason why a manifest of a file was not understood, the first time.
    pub fn new_failure(&mut self, rules: FileRules) -> Option<&ManifestFailure> {
        let failure = self.failures.get_mut(rules.failure?)?;
        if failure.is_said {
            return None;
        }
        failure.is_said = true;
        Some(failure)
    }

    /// Returns what the project says of the files of the last folder, and of this one of them.
    #[inline(never)]
    fn rules_of(
        &self,
        rt: &crate::shim::host::HostRuntime,
        last: &LastFolder,
        name: &str,
    ) -> io::Result<FileRules> {
        let Some(index) = last.folder.package else {
            return Ok(plain_rules(Edition::Of2021));
        };
        let Some(package) = self.packages.get(index) else {
            return Ok(plain_rules(Edition::Of2021));
        };
        let mut rules = package.rules;
        let Some(manifest) = package.manifest else {
            return Ok(rules);
        };
        let Some(manifest) = self.manifests.get(manifest) else {
            return Ok(rules);
        };
        let path = ::alloc::format!("{}/{name}", last.whole_path);
        let file = path.as_str().strip_prefix(package.folder.as_str());
        let file = file.unwrap_or("").strip_prefix('/').unwrap_or("");
        if let Some(edition) = target_edition(manifest, file, rules.edition) {
            rules.edition = edition;
        }
        Ok(rules)
    }

    /// Notes that the next files are those of a walk over a folder, which follows no links. An
    /// empty path is that of the current folder. Returns an error if an allocation fails.
    #[inline(never)]
    pub fn enter(&mut self, rt: &crate::shim::host::HostRuntime, folder: &str) -> io::Result<()> {
        let path = String::from(folder.strip_suffix('/').unwrap_or(folder));
        let given = if folder.is_empty() { "." } else { folder };
        self.walked = match fs::canonicalize(rt, given) {
            Ok(whole_path) => Some(WalkedFolder { path, whole_path }),
            Err(_) => None,
        };
        Ok(())
    }

    /// Notes that the walk is over.
    #[inline]
    pub fn leave(&mut self) {
        self.walked = None;
    }

    /// Returns the path from the root on of the folder of a file.
    #[inline(never)]
    fn whole_path(&self, rt: &crate::shim::host::HostRuntime, folder: &str) -> io::Result<String> {
        if let Some(walked) = &self.walked {
            let whole_path = walked.whole_path.as_str();
            let rest = folder.strip_prefix(walked.path.as_str()).unwrap_or(folder);
            let rest = rest.strip_prefix('/').unwrap_or(rest);
            if rest.is_empty() || rest == "." {
                return Ok(String::from(whole_path));
            }
            let whole_path = whole_path.strip_suffix('/').unwrap_or(whole_path);
            return Ok(::alloc::format!("{whole_path}/{rest}"));
        }
        match fs::canonicalize(rt, folder) {
            Ok(whole_path) => Ok(whole_path),
            Err(_) => Ok(String::from("/")),
        }
    }

    /// Returns what the project says of the file with this path: its edition is that of all files,
    /// or that of its target in the nearest package above the file, 2021 without a package, and the
    /// newest one if a manifest was not understood. Returns an error if an allocation fails.
    #[inline(never)]
    pub fn rules(
        &mut self,
        rt: &crate::shim::host::HostRuntime,
        path: &str,
    ) -> io::Result<FileRules> {
        let FilePath { folder, name } = parts_of(path);
        let is_last = match &self.last_folder {
            Some(last) => last.path.as_str() == folder,
            None => false,
        };
        if !is_last {
            let whole_path = self.whole_path(rt, folder)?;
            let path = whole_path.as_str();
            let known = self.folder_at(rt, path.strip_suffix('/').unwrap_or(path))?;
            self.last_folder = Some(LastFolder {
                path: String::from(folder),
                whole_path,
                folder: known,
            });
        }
        let mut rules = match &self.last_folder {
            Some(last) => self.rules_of(rt, last, name)?,
            None => plain_rules(Edition::Of2021),
        };
        if let Some(edition) = self.edition {
            rules.edition = edition;
        }
        Ok(rules)
    }
}
