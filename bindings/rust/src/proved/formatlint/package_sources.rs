//! What the source files of a package say of names of macros and of lints.

// Extracted from crates/formatlint/src/package_sources.rt by tools/extract: not to be edited.
// That source has the contracts, and is proved. That this text means the same is only tested.

use crate::proved::formatlint::attributes::{allowed_parts, has_attribute, Lint};
use crate::proved::formatlint::walk::is_left_out;
use crate::proved::macro_owners::Facts;
use crate::proved::manifest::Package;
use crate::shim::alloc::AllocError;
use crate::shim::host::fs;
use crate::shim::host::fs::DirEntry;
use crate::shim::prelude::*;
use alloc::collections::BTreeSet;
use core::mem;
use std::io;
use std::io::Read;

/// The most bytes of a file that are read.
const MOST: u64 = 64 << 20;

/// The mark of a package in which no name is known.
const EVERY_NAME: &str = "$";

/// The name of a crate that owns macros: where a manifest may give it to another one, no macro of
/// such a crate is known.
const RENAMED_OWNER: &str = "log";

/// What the source files of the package of the last file say: all those below its folder.
pub struct PackageSources {
    /// The folder of the package, or nothing if it is of none, or is not read.
    folder: String,
    /// Their facts about names of macros, or those of the file if it is in no package.
    pub facts: Facts,
    /// Whether the package allows `clippy::uninlined_format_args` in all files.
    pub allows_arguments: bool,
    /// Whether the package allows `named_arguments_used_positionally` in all files.
    pub allows_positions: bool,
    /// The paths from the root on of the files that were read.
    paths: BTreeSet<String>,
}

/// Returns the text of a file, or its first 64 MiB and a byte more. Fails if it cannot be read.
#[inline(never)]
fn read_text(rt: &crate::shim::host::HostRuntime, path: &str) -> io::Result<String> {
    let mut text = String::new();
    fs::open(rt, path)?
        .take(MOST + 1)
        .read_to_string(&mut text)?;
    Ok(text)
}

/// Returns whether a package gives a crate on which it depends another name than its own.
#[inline(never)]
fn renames(package: &Package) -> bool {
    for dependency in &package.dependencies {
        let name = dependency.name.as_str();
        let mut rest = name.chars();
        for c in dependency.package.as_str().chars() {
            if rest.next() != Some(if c == '-' { '_' } else { c }) {
                return true;
            }
        }
        if rest.next().is_some() {
            return true;
        }
    }
    false
}

/// Returns whether a failure to read a file says nothing of it: the compiler cannot read it either,
/// so it is no source file of a package that compiles.
#[inline]
fn is_no_source(error: &io::Error) -> bool {
    error.kind() != io::ErrorKind::OutOfMemory
}

/// Returns whether a file is the root of a library or of a program of the package in a folder.
#[inline]
fn is_root(folder: &str, path: &str) -> bool {
    matches!(
        path.strip_prefix(folder),
        Some("/src/lib.rs" | "/src/main.rs")
    )
}

/// Adds the path of an entry of a folder to `files` or to `folders`, if it is one of a source file
/// or of a folder. Fails if that is not known.
#[inline(never)]
fn put_entry(
    rt: &crate::shim::host::HostRuntime,
    folder: &str,
    entry: &DirEntry,
    files: &mut Vec<String>,
    folders: &mut Vec<String>,
) -> io::Result<()> {
    let name = entry.file_name();
    let kind = entry.file_type(rt)?;
    let path = ::alloc::format!("{folder}/{name}");
    if kind.is_dir() && !is_left_out(name) {
        folders.push(path);
    } else if kind.is_file() && name.ends_with(".rs") {
        files.push(path);
    }
    Ok(())
}

/// Adds the paths of the source files of a folder to `files`, and those of folders to `folders`.
/// Fails if an allocation fails.
#[inline(never)]
fn put_entries(
    rt: &crate::shim::host::HostRuntime,
    folder: &str,
    files: &mut Vec<String>,
    folders: &mut Vec<String>,
) -> io::Result<()> {
    for entry in &fs::read_dir(rt, folder)? {
        match put_entry(rt, folder, entry, files, folders) {
            Err(error) if !is_no_source(&error) => return Err(error),
            _ => {}
        }
    }
    Ok(())
}

impl PackageSources {
    /// Returns what no file says.
    pub fn new(rt: &crate::shim::host::HostRuntime) -> PackageSources {
        PackageSources {
            folder: String::new(),
            facts: Facts::new(),
            allows_arguments: false,
            allows_positions: false,
            paths: BTreeSet::new(),
        }
    }

    /// Adds a name that may be another macro's.
    fn add_name(
        &mut self,
        rt: &crate::shim::host::HostRuntime,
        name: &str,
    ) -> Result<(), AllocError> {
        let facts = mem::replace(&mut self.facts, Facts::new());
        self.facts = facts.with_name(name)?;
        Ok(())
    }

    /// Adds what attributes of a text say, of the root of a library or a program or of another
    /// file.
    #[inline(never)]
    fn add_attributes(
        &mut self,
        rt: &crate::shim::host::HostRuntime,
        text: &str,
        is_root: bool,
    ) -> Result<(), AllocError> {
        if !has_attribute(text) {
            return Ok(());
        }
        let arguments = allowed_parts(text, Lint::Arguments)?;
        if arguments.has_module || is_root && arguments.is_whole {
            self.allows_arguments = true;
        }
        let positions = allowed_parts(text, Lint::Positions)?;
        if positions.has_module || is_root && positions.is_whole {
            self.allows_positions = true;
        }
        Ok(())
    }

    /// Reads what attributes of a text say that is in no package, and no facts.
    pub(crate) fn read_attributes(
        &mut self,
        rt: &crate::shim::host::HostRuntime,
        text: &str,
    ) -> Result<(), AllocError> {
        *self = PackageSources::new(rt);
        self.add_attributes(rt, text, false)
    }

    /// Adds what a text says, of the root of a library or a program or of another file.
    #[inline(never)]
    fn add_text(
        &mut self,
        rt: &crate::shim::host::HostRuntime,
        text: &str,
        is_root: bool,
    ) -> Result<(), AllocError> {
        let facts = mem::replace(&mut self.facts, Facts::new());
        self.facts = facts.with_file(text)?;
        self.add_attributes(rt, text, is_root)
    }

    /// Adds what the file of a path says. Of one that is too long every name is unknown.
    #[inline(never)]
    fn add_path(
        &mut self,
        rt: &crate::shim::host::HostRuntime,
        path: &str,
        is_root: bool,
    ) -> Result<(), AllocError> {
        match read_text(rt, path) {
            Ok(text) if text.len() as u64 <= MOST => {
                self.paths.insert(String::from(path));
                self.add_text(rt, text.as_str(), is_root)
            }
            Err(error) if is_no_source(&error) => Ok(()),
            _ => self.add_name(rt, EVERY_NAME),
        }
    }

    /// Returns whether a file was read, so that its facts are among these.
    pub fn has_file(&self, rt: &crate::shim::host::HostRuntime, path: &str) -> bool {
        match fs::canonicalize(rt, path) {
            Ok(whole_path) => self.paths.contains(whole_path.as_str()),
            Err(_) => false,
        }
    }

    /// Adds what all source files below a folder say: those that a run over it reads.
    #[inline(never)]
    fn add_folder(
        &mut self,
        rt: &crate::shim::host::HostRuntime,
        package_folder: &str,
    ) -> Result<(), AllocError> {
        let mut folders = Vec::new();
        folders.push(String::from(package_folder));
        for _ in 0..u64::MAX {
            let Some(folder) = folders.pop() else {
                break;
            };
            let mut files = Vec::new();
            match put_entries(rt, folder.as_str(), &mut files, &mut folders) {
                Err(error) if !is_no_source(&error) => self.add_name(rt, EVERY_NAME)?,
                _ => {}
            }
            for path in &files {
                let path = path.as_str();
                self.add_path(rt, path, is_root(package_folder, path))?;
            }
        }
        Ok(())
    }

    /// Returns whether these are the sources of a package, which were read.
    #[inline(never)]
    pub fn is_of(&self, package: Option<&Package>) -> bool {
        match package {
            Some(package) => {
                !self.folder.is_empty() && self.folder.as_str() == package.folder.as_str()
            }
            None => false,
        }
    }

    /// Reads what a package says, of which a file has this text: all source files below its folder.
    /// Without a package it is what the text alone says.
    #[inline(never)]
    pub(crate) fn read(
        &mut self,
        rt: &crate::shim::host::HostRuntime,
        package: Option<&Package>,
        text: &str,
    ) -> Result<(), AllocError> {
        let Some(package) = package else {
            *self = PackageSources::new(rt);
            return self.add_text(rt, text, false);
        };
        let folder = package.folder.as_str();
        *self = PackageSources::new(rt);
        self.add_folder(rt, if folder.is_empty() { "/" } else { folder })?;
        if renames(package) {
            self.add_name(rt, RENAMED_OWNER)?;
        }
        self.folder = String::from(folder);
        Ok(())
    }

    /// Reads what a package says, with a text that no file of it has to have.
    #[inline(never)]
    pub(crate) fn read_with(
        &mut self,
        rt: &crate::shim::host::HostRuntime,
        package: Option<&Package>,
        text: &str,
    ) -> Result<(), AllocError> {
        self.read(rt, package, text)?;
        if package.is_some() {
            self.folder.clear();
            self.add_text(rt, text, false)?;
        }
        Ok(())
    }
}
