//! Files that are read as TOML.

// Extracted from crates/manifest/src/packages/reading.rt by tools/extract: not to be edited.
// That source has the contracts, and is proved. That this text means the same is only tested.

use super::{ManifestFailure, ManifestFault, Packages};
use crate::proved::file_paths::is_plain;
use crate::proved::manifest::document::{read_toml, Refusal};
use crate::proved::manifest::facts::clippy_version;
use crate::proved::manifest::settings::{package_setting, Setting};
use crate::proved::manifest::versions::RustVersion;
use crate::proved::rust_trees::{Place, Places};
use crate::shim::host::fs;
use crate::shim::prelude::*;
use crate::shim::toml::Value;
use std::io;
use std::io::Read;

/// The most bytes of a manifest that are read.
const MOST: usize = 4 << 20;

/// The bytes that there is room for before a manifest is read.
const ROOM: usize = 1 << 12;

/// What became of a file that is read as TOML.
#[derive(Clone, Copy)]
pub(crate) enum Found {
    /// It does not exist.
    Absent,
    /// It was not understood, for the reason with this index.
    Failed(usize),
    /// It is the manifest with this index.
    Read(usize),
}

/// The version of Rust that a clippy.toml names.
#[derive(Clone, Copy)]
pub(crate) enum ClippyVersion {
    /// There is no clippy.toml, or it names none.
    Absent,
    /// The file was not understood, for the reason with this index.
    Failed(usize),
    /// It is this one.
    Version(RustVersion),
}

/// Returns the bytes of a file, up to one more than are read, or `None` if there is no file.
#[inline(never)]
fn bytes_at(rt: &crate::shim::host::HostRuntime, path: &str) -> io::Result<Option<Vec<u8>>> {
    match fs::metadata(rt, path) {
        Ok(data) if data.is_file() => {}
        Ok(_) => return Ok(None),
        Err(error) if error.kind() == io::ErrorKind::NotFound => return Ok(None),
        Err(error) => return Err(error),
    }
    let mut bytes = Vec::with_capacity(ROOM);
    fs::open(rt, path)?
        .take(MOST as u64 + 1)
        .read_to_end(&mut bytes)?;
    Ok(Some(bytes))
}

/// Returns the place of a byte offset in a text.
fn place_in(rt: &crate::shim::host::HostRuntime, text: &str, offset: usize) -> io::Result<Place> {
    let places = Places::new(text)?;
    Ok(places.place_of(text.boundary_at_most(offset)))
}

/// Returns the table that bytes are as TOML, or the reason why they are none. Returns an error if
/// an allocation fails.
#[inline(never)]
fn toml_in(
    rt: &crate::shim::host::HostRuntime,
    bytes: &[u8],
) -> io::Result<Result<Value, ManifestFault>> {
    if bytes.len() > MOST {
        return Ok(Err(ManifestFault::Length));
    }
    let text = match core::str::from_utf8(bytes) {
        Ok(text) => text,
        Err(error) => {
            let valid_front = bytes.get(..error.valid_up_to()).unwrap_or(&[]);
            let front = core::str::from_utf8(valid_front).unwrap_or("");
            let place = place_in(rt, front, front.len())?;
            return Ok(Err(ManifestFault::Encoding(place)));
        }
    };
    match read_toml(text) {
        Ok(manifest) => Ok(Ok(manifest)),
        Err(Refusal::Syntax(offset)) => {
            let place = place_in(rt, text, offset)?;
            Ok(Err(ManifestFault::Syntax(place)))
        }
        Err(Refusal::Memory) => Err(io::Error::from(io::ErrorKind::OutOfMemory)),
    }
}

impl Packages {
    /// Returns the manifest that was read, or `None` if it was not.
    pub(crate) fn read_at(&self, found: Found) -> Option<&Value> {
        match found {
            Found::Read(index) => self.manifests.get(index),
            _ => None,
        }
    }

    /// Adds the reason why a file was not understood, and returns its index. Returns an error if an
    /// allocation fails.
    #[inline(never)]
    pub(crate) fn fail(
        &mut self,
        rt: &crate::shim::host::HostRuntime,
        path: &str,
        fault: ManifestFault,
    ) -> io::Result<usize> {
        let index = self.failures.len();
        self.failures.push(ManifestFailure {
            path: String::from(path),
            fault,
            is_said: false,
        });
        Ok(index)
    }

    /// Reads a file as TOML.
    #[inline(never)]
    fn read_file(&mut self, rt: &crate::shim::host::HostRuntime, path: &str) -> io::Result<Found> {
        let fault = match bytes_at(rt, path) {
            Ok(None) => return Ok(Found::Absent),
            Ok(Some(bytes)) => match toml_in(rt, bytes.as_slice())? {
                Ok(manifest) => {
                    let index = self.manifests.len();
                    self.manifests.push(manifest);
                    return Ok(Found::Read(index));
                }
                Err(fault) => fault,
            },
            Err(error) => ManifestFault::System(error),
        };
        Ok(Found::Failed(self.fail(rt, path, fault)?))
    }

    /// Reads the Cargo.toml in a folder, the first time.
    #[inline(never)]
    pub(crate) fn read_manifest(
        &mut self,
        rt: &crate::shim::host::HostRuntime,
        folder: &str,
    ) -> io::Result<Found> {
        if let Some(found) = self.found.get(folder) {
            return Ok(*found);
        }
        let path = ::alloc::format!("{folder}/Cargo.toml");
        let found = self.read_file(rt, path.as_str())?;
        self.found.insert(String::from(folder), found);
        Ok(found)
    }

    /// Returns the version of Rust in the clippy.toml in a folder, or above it.
    #[inline(never)]
    pub(crate) fn read_clippy(
        &mut self,
        rt: &crate::shim::host::HostRuntime,
        folder: &str,
        above: ClippyVersion,
    ) -> io::Result<ClippyVersion> {
        for name in [".clippy.toml", "clippy.toml"] {
            let path = ::alloc::format!("{folder}/{name}");
            match self.read_file(rt, path.as_str())? {
                Found::Absent => {}
                Found::Failed(failure) => return Ok(ClippyVersion::Failed(failure)),
                Found::Read(index) => {
                    let version = match self.manifests.get(index) {
                        Some(manifest) => clippy_version(manifest),
                        None => Ok(None),
                    };
                    return match version {
                        Ok(Some(version)) => Ok(ClippyVersion::Version(version)),
                        Ok(None) => Ok(ClippyVersion::Absent),
                        Err(misfit) => {
                            let fault = ManifestFault::Misfit(misfit);
                            let failure = self.fail(rt, path.as_str(), fault)?;
                            Ok(ClippyVersion::Failed(failure))
                        }
                    };
                }
            }
        }
        Ok(above)
    }

    /// Returns what became of the manifest of the workspace to which a package refers, where
    /// `nearest` is that above it.
    #[inline(never)]
    pub(crate) fn workspace_of(
        &mut self,
        rt: &crate::shim::host::HostRuntime,
        folder: &str,
        manifest: usize,
        nearest: Found,
    ) -> io::Result<Found> {
        let path = match self.manifests.get(manifest) {
            Some(manifest) => match package_setting(manifest, "workspace") {
                Setting::Text(path) if !is_plain(path) => return Ok(Found::Absent),
                Setting::Text(path) => ::alloc::format!("{folder}/{path}"),
                _ => return Ok(nearest),
            },
            None => return Ok(nearest),
        };
        match fs::canonicalize(rt, path.as_str()) {
            Ok(path) => self.read_manifest(rt, path.as_str()),
            Err(_) => Ok(Found::Absent),
        }
    }
}
