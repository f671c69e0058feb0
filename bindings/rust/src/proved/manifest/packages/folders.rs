//! What is known of folders, one below the other.

// Extracted from crates/manifest/src/packages/folders.rt by tools/extract: not to be edited.
// That source has the contracts, and is proved. That this text means the same is only tested.

use super::reading::{ClippyVersion, Found};
use super::{plain_rules, ManifestFault, Package, Packages};
use crate::proved::manifest::dependencies::package_dependencies;
use crate::proved::manifest::facts::{package_facts, Misfit, PackageFacts};
use crate::proved::manifest::settings::{package_table, workspace_table};
use crate::proved::manifest::versions::{captures_variables, Edition};
use crate::shim::prelude::*;
use std::io;

/// What is known of a folder, by its files and those of the folders above it.
#[derive(Clone, Copy)]
pub(crate) struct Folder {
    /// The manifest of the nearest workspace.
    pub(super) workspace: Found,
    /// The version in the nearest clippy.toml.
    pub(super) clippy: ClippyVersion,
    /// The index of the nearest package.
    pub(super) package: Option<usize>,
}

/// A package whose manifest is being understood.
#[derive(Clone, Copy)]
struct Member<'a> {
    /// The path of its folder.
    folder: &'a str,
    /// The index of its manifest.
    manifest: usize,
    /// The manifest of its workspace.
    workspace: Found,
    /// The version in the clippy.toml of its folder.
    clippy: ClippyVersion,
}

/// Returns whether variables may be moved into the format strings of a package.
fn may_inline(facts: &PackageFacts, clippy: ClippyVersion) -> bool {
    let version = match clippy {
        ClippyVersion::Version(version) => Some(version),
        _ => facts.rust_version,
    };
    !facts.allows_arguments && version.map_or(true, captures_variables)
}

impl Packages {
    /// Returns the index of the reason why the manifest of a package was not understood.
    #[inline(never)]
    fn fail_member(
        &mut self,
        rt: &crate::shim::host::HostRuntime,
        member: Member<'_>,
        misfit: Misfit,
    ) -> io::Result<usize> {
        if let (Misfit::Workspace, Found::Failed(failure)) = (misfit, member.workspace) {
            return Ok(failure);
        }
        let path = ::alloc::format!("{}/Cargo.toml", member.folder);
        self.fail(rt, path.as_str(), ManifestFault::Misfit(misfit))
    }

    /// Adds a package, and returns its index.
    #[inline(never)]
    fn add_package(
        &mut self,
        rt: &crate::shim::host::HostRuntime,
        member: Member<'_>,
    ) -> io::Result<usize> {
        let index = self.packages.len();
        let folder = String::from(member.folder);
        let workspace = self.read_at(member.workspace);
        let Some(manifest) = self.manifests.get(member.manifest) else {
            return Ok(index);
        };
        let mut package = Package {
            folder,
            dependencies: package_dependencies(manifest, workspace)?,
            manifest: Some(member.manifest),
            rules: plain_rules(Edition::Of2024),
        };
        package.rules.package = Some(index);
        match package_facts(manifest, workspace) {
            Ok(facts) => {
                package.rules.edition = facts.edition;
                package.rules.rust_version = facts.rust_version;
                package.rules.may_inline = may_inline(&facts, member.clippy);
                package.rules.warns_of_positions = !facts.allows_positions;
                if let ClippyVersion::Failed(failure) = member.clippy {
                    package.rules.fail(failure);
                }
            }
            Err(misfit) => {
                let failure = self.fail_member(rt, member, misfit)?;
                package.rules.fail(failure);
            }
        }
        self.packages.push(package);
        Ok(index)
    }

    /// Adds the package of a manifest that was not understood, and returns its index.
    #[inline(never)]
    fn add_failed(
        &mut self,
        rt: &crate::shim::host::HostRuntime,
        folder: &str,
        failure: usize,
    ) -> io::Result<usize> {
        let index = self.packages.len();
        let mut rules = plain_rules(Edition::Of2024);
        rules.package = Some(index);
        rules.fail(failure);
        self.packages.push(Package {
            folder: String::from(folder),
            dependencies: Vec::new(),
            manifest: None,
            rules,
        });
        Ok(index)
    }

    /// Returns what is known of a folder, by its files and what is known of the one above it.
    #[inline(never)]
    fn look_into(
        &mut self,
        rt: &crate::shim::host::HostRuntime,
        path: &str,
        above: Folder,
    ) -> io::Result<Folder> {
        let mut folder = above;
        if self.is_inlining {
            folder.clippy = self.read_clippy(rt, path, above.clippy)?;
        }
        let found = self.read_manifest(rt, path)?;
        match found {
            Found::Absent => {}
            Found::Failed(failure) => {
                folder.workspace = found;
                folder.package = Some(self.add_failed(rt, path, failure)?);
            }
            Found::Read(index) => {
                let (is_workspace, is_package) = match self.manifests.get(index) {
                    Some(manifest) => (
                        workspace_table(manifest).is_some(),
                        package_table(manifest).is_some(),
                    ),
                    None => (false, false),
                };
                if is_workspace {
                    folder.workspace = found;
                }
                if is_package {
                    let member = Member {
                        folder: path,
                        manifest: index,
                        workspace: self.workspace_of(rt, path, index, folder.workspace)?,
                        clippy: folder.clippy,
                    };
                    folder.package = Some(self.add_package(rt, member)?);
                }
            }
        }
        Ok(folder)
    }

    /// Returns what is known of the folder with this path from the root on.
    #[inline(never)]
    pub(crate) fn folder_at(
        &mut self,
        rt: &crate::shim::host::HostRuntime,
        path: &str,
    ) -> io::Result<Folder> {
        let mut folder = Folder {
            workspace: Found::Absent,
            clippy: ClippyVersion::Absent,
            package: None,
        };
        // the paths of the folders that are still to be looked into, the last one the highest
        let mut paths = Vec::new();
        let mut rest = path;
        for _ in 0..=path.len() {
            if let Some(known) = self.folders.get(rest) {
                folder = *known;
                break;
            }
            paths.push(rest);
            match rest.rsplit_once('/') {
                Some((parent, _)) => rest = parent,
                None => break,
            }
        }
        for path in paths.iter().rev() {
            folder = self.look_into(rt, *path, folder)?;
            self.folders.insert(String::from(*path), folder);
        }
        Ok(folder)
    }
}
