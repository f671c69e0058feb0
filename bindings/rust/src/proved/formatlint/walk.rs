//! The source files below a folder.

// Extracted from crates/formatlint/src/walk.rt by tools/extract: not to be edited.
// That source has the contracts, and is proved. That this text means the same is only tested.

use crate::proved::formatlint::totals::Totals;
use crate::proved::lint_program::{is_same, name_before, path_of};
use crate::shim::alloc::AllocError;
use crate::shim::host::fs;
use crate::shim::host::fs::DirEntry;
use crate::shim::host::fs::{symlink_metadata, File};
use crate::shim::prelude::*;
use std::io;

/// A file or a folder.
#[derive(PartialEq, Eq, PartialOrd, Ord)]
struct Entry {
    path: String,
    is_folder: bool,
}

/// The source files below a folder, in the order of names: those whose name ends in `.rs`. Links
/// are not followed, and hidden folders, those with the name `target` and the excluded names are
/// left out.
pub struct Walk<'a> {
    /// The path of the folder.
    folder: &'a str,
    /// Its path from the root on, without links, or `None` if the system does not say it.
    real_folder: Option<String>,
    /// The files and folders that are still to be read, the next one last.
    rest: Vec<Entry>,
    /// The names of files and folders to leave out.
    excluded_names: &'a [&'a str],
}

/// Returns the path of a name in a folder. An empty path is that of the current folder.
#[inline(never)]
fn join(folder: &str, name: &str) -> Result<String, AllocError> {
    let mut path = String::from(folder);
    if !folder.is_empty() && !folder.ends_with('/') {
        path.push('/');
    }
    path.push_str(name);
    Ok(path)
}

/// Returns the path that messages and calls give a folder, whose empty path is the current one.
#[inline]
fn shown_folder(folder: &str) -> &str {
    if folder.is_empty() {
        "."
    } else {
        folder
    }
}

/// Returns whether a folder of this name is left out.
#[inline]
pub fn is_left_out(name: &str) -> bool {
    name.starts_with('.') || name == "target"
}

impl<'a> Walk<'a> {
    /// Returns the files below a folder. An empty path is that of the current folder.
    #[inline(never)]
    pub(crate) fn new(
        rt: &crate::shim::host::HostRuntime,
        folder: &'a str,
        excluded_names: &'a [&'a str],
    ) -> Result<Walk<'a>, AllocError> {
        let mut rest = Vec::new();
        rest.push(Entry {
            path: String::from(folder),
            is_folder: true,
        });
        let real_folder = match fs::open(rt, shown_folder(folder)) {
            Ok(file) => path_of(rt, &file).ok(),
            Err(_) => None,
        };
        Ok(Walk {
            folder,
            real_folder,
            rest,
            excluded_names,
        })
    }

    /// Returns whether an open file is the one that lies at a path that `next` returned: no folder
    /// on the way and not the file itself was replaced by a link meanwhile. Where the system does
    /// not say the path of an open file, this is known of the file itself alone.
    #[inline(never)]
    pub fn holds(
        &self,
        rt: &crate::shim::host::HostRuntime,
        path: &str,
        file: &File,
    ) -> io::Result<bool> {
        let Some(real_folder) = &self.real_folder else {
            return Ok(is_same(&symlink_metadata(rt, path)?, &file.metadata()?));
        };
        let real_path = path_of(rt, file)?;
        let found = real_path.as_str().strip_prefix(real_folder.as_str());
        let wanted = path.strip_prefix(self.folder).unwrap_or(path);
        Ok(found.unwrap_or("").trim_start_matches('/') == wanted.trim_start_matches('/'))
    }

    /// Adds an entry of a folder, if it is to be read. Says what a file with an old text is.
    #[inline(never)]
    fn add(
        &self,
        rt: &crate::shim::host::HostRuntime,
        folder: &str,
        entry: &DirEntry,
        entries: &mut Vec<Entry>,
        totals: &mut Totals,
    ) -> io::Result<()> {
        let name = entry.file_name();
        if self.excluded_names.contains(&name) {
            return Ok(());
        }
        let kind = entry.file_type(rt)?;
        let is_folder = kind.is_dir();
        let is_read = if is_folder {
            !is_left_out(name)
        } else {
            kind.is_file() && name.ends_with(".rs")
        };
        let old_name = if kind.is_file() {
            name_before(name)
        } else {
            None
        };
        if !is_read && old_name.is_none() {
            return Ok(());
        }
        let path = join(folder, name)?;
        match old_name {
            Some(old_name) => totals.show_old_text(rt, path.as_str(), old_name),
            None => entries.push(Entry { path, is_folder }),
        }
        Ok(())
    }

    /// Returns the entries of a folder, the first one last. The failure of an entry
    /// that cannot be read is added to the totals.
    #[inline(never)]
    fn entries(
        &self,
        rt: &crate::shim::host::HostRuntime,
        folder: &str,
        totals: &mut Totals,
    ) -> io::Result<Vec<Entry>> {
        let path = shown_folder(folder);
        let mut entries = Vec::new();
        for entry in &fs::read_dir(rt, path)? {
            if let Err(error) = self.add(rt, folder, entry, &mut entries, totals) {
                totals.fail(rt, path, &error);
            }
        }
        entries.sort();
        entries.reverse();
        Ok(entries)
    }

    /// Returns the path of the next file, or `None` if there is none. The failure of
    /// a folder that cannot be read is added to the totals.
    #[inline(never)]
    pub(crate) fn next(
        &mut self,
        rt: &crate::shim::host::HostRuntime,
        totals: &mut Totals,
    ) -> Result<Option<String>, AllocError> {
        for _ in 0..u64::MAX {
            let Some(entry) = self.rest.pop() else {
                return Ok(None);
            };
            if !entry.is_folder {
                return Ok(Some(entry.path));
            }
            match self.entries(rt, entry.path.as_str(), totals) {
                Ok(mut entries) => self.rest.append(&mut entries),
                Err(error) => totals.fail(rt, entry.path.as_str(), &error),
            }
        }
        Ok(None)
    }
}
