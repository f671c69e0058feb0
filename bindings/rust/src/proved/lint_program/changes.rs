//! Changed files, which are written in place while their old text stands beside them.

// Extracted from crates/lint_program/src/changes.rt by tools/extract: not to be edited.
// That source has the contracts, and is proved. That this text means the same is only tested.

use crate::proved::lint_program::open_files::{is_same, real_path};
use crate::shim::host::fs;
use crate::shim::host::fs::{File, Metadata, OpenOptions};
use crate::shim::prelude::*;
use std::io;
use std::io::ErrorKind;

/// The words between the name of a file and the number that make the name of the file beside it.
const MARK: &str = ".formatlint-";

/// The number of digits of that number.
const DIGITS: usize = 16;

/// The most bytes of a name.
const MOST_NAME: usize = 255;

/// The number of the system's error that a file system can only be read.
const READ_ONLY: i32 = 30;

/// The step in which the old text is written beside a file.
const BESIDE: &str = "its old text in a file beside it";

/// What is done with changed files.
#[derive(Clone, Copy, PartialEq)]
pub enum Change {
    /// They are written in place.
    Write,
    /// The difference is written to standard output.
    Diff,
    /// Their paths are written to standard output.
    Check,
}

/// The text that a file has after a step failed.
#[derive(Clone, Copy, PartialEq)]
pub enum LeftText {
    /// The old one.
    Old,
    /// The new one.
    New,
    /// Neither of the two as a whole.
    Part,
}

/// A step of the writing of a file that failed.
pub struct StepFailure {
    /// The step, as messages name it.
    pub step: &'static str,
    /// The error of the system, or `None` if there was none.
    pub error: Option<io::Error>,
    /// The text that the file has now.
    pub left: LeftText,
    /// The path of the file beside it that has the old text, or `None` if there is none.
    pub old_path: Option<String>,
}

/// Returns the failure of a step before the file was written.
#[inline]
fn failure_of(step: &'static str, error: Option<io::Error>) -> StepFailure {
    StepFailure {
        step,
        error,
        left: LeftText::Old,
        old_path: None,
    }
}

/// Returns the answer of a step before the file was written, where a failure has its name.
fn step_result<T>(step: &'static str, answer: io::Result<T>) -> Result<T, StepFailure> {
    match answer {
        Ok(value) => Ok(value),
        Err(error) => Err(failure_of(step, Some(error))),
    }
}

/// Returns the name of the file, or its start, whose old text is in a file of this name, or `None`
/// if no run of this program gives such a name.
#[inline(never)]
pub fn name_before(name: &str) -> Option<&str> {
    let (front, number) = name.strip_prefix('.')?.rsplit_once(MARK)?;
    let is_number = number.len() == DIGITS && number.chars().all(|c| c.is_ascii_hexdigit());
    if is_number {
        Some(front)
    } else {
        None
    }
}

/// Returns a path beside another one, which cannot be foretold. A name that would be too long has
/// only the start of the other name, and so has one of a name that is not UTF-8.
#[inline(never)]
fn path_beside(rt: &crate::shim::host::HostRuntime, path: &str) -> io::Result<String> {
    let mut bytes = [0u8; 8];
    rt.fill_bytes(&mut bytes)?;
    let mut number = 0u64;
    for byte in bytes {
        number = number << 8 | u64::from(byte);
    }
    let (folder, name) = path.rsplit_once('/').unwrap_or((".", path));
    let most = MOST_NAME.saturating_sub(MARK.len() + DIGITS + 1);
    let (plain, _) = name.split_once('\0').unwrap_or((name, ""));
    let front = plain.get(..plain.boundary_at_most(most)).unwrap_or("");
    Ok(::alloc::format!("{folder}/.{front}{MARK}{number:016x}"))
}

/// Writes the whole text of a file, and waits until it is on the disk.
fn write_text(file: &File, text: &[u8]) -> io::Result<()> {
    file.write_all_at(text, 0)?;
    file.set_len(text.len() as u64)?;
    file.sync_all()
}

/// A file that has the old text of another one, beside it.
struct OldText {
    file: File,
    path: String,
}

impl OldText {
    /// Writes an old text into a new file beside another one, which only its owner may read.
    /// Returns `None` if the system lets nobody make a file there, and after an error there is
    /// none.
    #[inline(never)]
    fn write(
        rt: &crate::shim::host::HostRuntime,
        path: &str,
        text: &[u8],
    ) -> io::Result<Option<OldText>> {
        let path = path_beside(rt, path)?;
        let mut options = OpenOptions::new();
        options.write(true).create_new(true).mode(0o600);
        let old_text = match fs::open_with(rt, &options, path.as_str()) {
            Ok(file) => OldText { file, path },
            Err(error) if is_refused(&error) => return Ok(None),
            Err(error) => return Err(error),
        };
        match old_text.fill(rt, text) {
            Ok(()) => Ok(Some(old_text)),
            Err(error) => {
                let _ = old_text.remove(rt);
                Err(error)
            }
        }
    }

    /// Writes the text, and finds out whether the file lies where it was to be made.
    #[inline(never)]
    fn fill(&self, rt: &crate::shim::host::HostRuntime, text: &[u8]) -> io::Result<()> {
        if real_path(rt, &self.file, self.path.as_str())? != self.path {
            return Err(io::Error::from(ErrorKind::NotFound));
        }
        write_text(&self.file, text)
    }

    /// Removes the file, wherever it lies now, unless another program has removed it.
    #[inline(never)]
    fn remove(&self, rt: &crate::shim::host::HostRuntime) -> io::Result<()> {
        let path = real_path(rt, &self.file, self.path.as_str())?;
        match fs::remove_file(rt, path.as_str()) {
            Err(error) if error.kind() == ErrorKind::NotFound => Ok(()),
            answer => answer,
        }
    }
}

/// Returns whether the error says that nobody like this user may make a file in a folder.
fn is_refused(error: &io::Error) -> bool {
    error.kind() == ErrorKind::PermissionDenied || error.raw_os_error() == Some(READ_ONLY)
}

/// Opens a file once more, to be read and written. It has to be the one that was read.
#[inline(never)]
fn open_again(
    rt: &crate::shim::host::HostRuntime,
    path: &str,
    source: &File,
) -> Result<File, StepFailure> {
    let data = step_result("opening it", source.metadata())?;
    if !data.is_file() {
        return Err(failure_of("it is a pipe or a device", None));
    }
    let mut options = OpenOptions::new();
    options.read(true).write(true);
    let file = step_result("opening it", fs::open_with(rt, &options, path))?;
    if !is_same(&data, &step_result("opening it", file.metadata())?) {
        return Err(failure_of("another program moved it", None));
    }
    Ok(file)
}

/// Returns whether a file has these bytes.
#[inline(never)]
fn has_bytes(rt: &crate::shim::host::HostRuntime, file: &File, bytes: &[u8]) -> io::Result<bool> {
    if file.metadata()?.len() != bytes.len() as u64 {
        return Ok(false);
    }
    let mut buffer = ::alloc::vec![0u8; bytes.len()];
    file.read_exact_at(buffer.as_mut_slice(), 0)?;
    Ok(buffer.as_slice() == bytes)
}

/// Gives a file the permissions again that it had before it was written, if the system took some
/// away. Returns `Err` if it does not have them then.
#[inline(never)]
fn keep_permissions(file: &File, data: &Metadata) -> io::Result<()> {
    if file.metadata()?.permissions() == data.permissions() {
        return Ok(());
    }
    file.set_permissions(data.permissions())?;
    if file.metadata()?.permissions() != data.permissions() {
        return Err(io::Error::from(ErrorKind::PermissionDenied));
    }
    Ok(())
}

/// Removes the file with an old text. If that fails, `failure` says where the file is.
#[inline(never)]
fn discard(
    rt: &crate::shim::host::HostRuntime,
    old_text: Option<OldText>,
    failure: &mut StepFailure,
) -> io::Result<()> {
    let Some(old_text) = old_text else {
        return Ok(());
    };
    let answer = old_text.remove(rt);
    if answer.is_err() {
        failure.old_path = Some(old_text.path);
    }
    answer
}

/// Puts the old text back into a file, after an error in writing the new one.
#[inline(never)]
fn put_back(
    rt: &crate::shim::host::HostRuntime,
    file: &File,
    old: &[u8],
    old_text: Option<OldText>,
    error: io::Error,
) -> StepFailure {
    let mut failure = failure_of("writing it", Some(error));
    if write_text(file, old).is_ok() {
        let _ = discard(rt, old_text, &mut failure);
    } else {
        failure.left = LeftText::Part;
        if let Some(old_text) = old_text {
            failure.old_path = Some(old_text.path);
        }
    }
    failure
}

/// Restores the permissions of a written file, which had this data, and removes the file with its
/// old text.
#[inline(never)]
fn finish(
    rt: &crate::shim::host::HostRuntime,
    file: &File,
    data: &Metadata,
    old_text: Option<OldText>,
) -> Result<(), StepFailure> {
    let mut failure = failure_of("its permissions", keep_permissions(file, data).err());
    failure.left = LeftText::New;
    if let Err(error) = discard(rt, old_text, &mut failure) {
        failure.step = "removing the file beside it";
        failure.error = Some(error);
    }
    if failure.error.is_some() {
        Err(failure)
    } else {
        Ok(())
    }
}

/// Writes new bytes to the file that a path leads to. `source` is the open file from which the old
/// bytes were read. The failure says which text the file has then.
#[inline(never)]
pub fn replace(
    rt: &crate::shim::host::HostRuntime,
    path: &str,
    source: &File,
    old: &[u8],
    new: &[u8],
) -> Result<(), StepFailure> {
    let file = open_again(rt, path, source)?;
    let data = step_result("its permissions", file.metadata())?;
    let real_path = step_result(BESIDE, real_path(rt, &file, path))?;
    let old_text = step_result(BESIDE, OldText::write(rt, real_path.as_str(), old))?;
    let mut failure = match has_bytes(rt, &file, old) {
        Ok(true) => {
            return match write_text(&file, new) {
                Ok(()) => finish(rt, &file, &data, old_text),
                Err(error) => Err(put_back(rt, &file, old, old_text, error)),
            };
        }
        Ok(false) => failure_of("another program changed it", None),
        Err(error) => failure_of("reading it again", Some(error)),
    };
    let _ = discard(rt, old_text, &mut failure);
    Err(failure)
}
