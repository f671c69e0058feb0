//! The process of a program: arguments, streams, files and the environment. Nothing that was
//! written waits in a buffer.
use std::fmt::Display;
use std::io::{self, Read, Write};
use std::sync::atomic::{AtomicBool, Ordering};

/// Whether standard output was closed when the program began.
static IS_OUTPUT_CLOSED: AtomicBool = AtomicBool::new(false);

/// Notes whether standard output is closed. It does so on Linux, before `main`: the standard library
/// then opens `/dev/null` in its place, where all that is written is lost without an error.
pub fn note_closed_output() {
    let is_closed = std::fs::symlink_metadata("/proc/self/fd").is_ok()
        && std::fs::symlink_metadata("/proc/self/fd/1").is_err();
    IS_OUTPUT_CLOSED.store(is_closed, Ordering::Relaxed);
}

/// The process of a program.
pub struct HostRuntime;

impl HostRuntime {
    /// Returns standard input.
    pub fn stdin(&self) -> Stdin {
        Stdin
    }

    /// Returns standard output.
    pub fn stdout(&self) -> Stdout {
        Stdout
    }

    /// Returns standard error.
    pub fn stderr(&self) -> Stderr {
        Stderr
    }

    /// Writes a text to standard output.
    pub fn print(&self, text: impl Display) -> io::Result<()> {
        self.stdout().write_all(text.to_string().as_bytes())
    }

    /// Writes a text to standard error.
    pub fn eprint(&self, text: impl Display) -> io::Result<()> {
        self.stderr().write_all(text.to_string().as_bytes())
    }

    /// Fills a buffer with random bytes: those of the keys that the standard library gives each of
    /// its hash maps.
    pub fn fill_bytes(&self, bytes: &mut [u8]) -> io::Result<()> {
        use std::hash::{BuildHasher, Hasher};
        for part in bytes.chunks_mut(8) {
            let keys = std::collections::hash_map::RandomState::new();
            let number = keys.build_hasher().finish().to_ne_bytes();
            part.copy_from_slice(&number[..part.len()]);
        }
        Ok(())
    }

    /// Writes a line to standard error.
    pub fn eprintln(&self, text: impl Display) -> io::Result<()> {
        self.eprint(format_args!("{text}\n"))
    }
}

/// Standard input.
pub struct Stdin;

impl Read for Stdin {
    fn read(&mut self, bytes: &mut [u8]) -> io::Result<usize> {
        io::stdin().read(bytes)
    }
}

/// The number of the system's error that a descriptor is not open.
const BAD_DESCRIPTOR: i32 = 9;

/// Standard output.
pub struct Stdout;

impl Write for Stdout {
    fn write(&mut self, bytes: &[u8]) -> io::Result<usize> {
        if IS_OUTPUT_CLOSED.load(Ordering::Relaxed) {
            return Err(io::Error::from_raw_os_error(BAD_DESCRIPTOR));
        }
        let mut stream = io::stdout();
        let count = stream.write(bytes)?;
        stream.flush()?;
        Ok(count)
    }

    fn flush(&mut self) -> io::Result<()> {
        io::stdout().flush()
    }
}

/// Standard error.
pub struct Stderr;

impl Write for Stderr {
    fn write(&mut self, bytes: &[u8]) -> io::Result<usize> {
        io::stderr().write(bytes)
    }

    fn flush(&mut self) -> io::Result<()> {
        io::stderr().flush()
    }
}

/// A time of the clock that never goes back.
pub struct Instant(std::time::Instant);

impl Instant {
    /// Returns the time now.
    pub fn now(_: &HostRuntime) -> io::Result<Instant> {
        Ok(Instant(std::time::Instant::now()))
    }

    /// Returns how much time has passed since then.
    pub fn elapsed(&self, _: &HostRuntime) -> io::Result<std::time::Duration> {
        Ok(self.0.elapsed())
    }
}

/// The trait that the standard library has only since Rust 1.70.
pub trait IsTerminal {
    /// Returns whether the stream is a terminal.
    fn is_terminal(&self) -> bool;
}

impl IsTerminal for Stdin {
    fn is_terminal(&self) -> bool {
        is_terminal(0, "/dev/stdin")
    }
}

impl IsTerminal for Stdout {
    fn is_terminal(&self) -> bool {
        is_terminal(1, "/dev/stdout")
    }
}

impl IsTerminal for Stderr {
    fn is_terminal(&self) -> bool {
        is_terminal(2, "/dev/stderr")
    }
}

/// Returns whether a descriptor is a terminal, by the numbers that Linux gives its devices. The
/// second path leads to it where there is no `/proc`; `/dev` may lack it where there is one.
#[cfg(target_os = "linux")]
fn is_terminal(descriptor: u32, path: &str) -> bool {
    use std::os::unix::fs::{FileTypeExt, MetadataExt};
    let found = std::fs::metadata(format!("/proc/self/fd/{descriptor}"));
    let Ok(found) = found.or_else(|_| std::fs::metadata(path)) else {
        return false;
    };
    let major = (found.rdev() >> 8) & 0xfff;
    found.file_type().is_char_device() && matches!(major, 4 | 5 | 136..=143 | 166 | 188 | 204 | 229)
}

/// Returns that there is no terminal, where there is no call of the oldest library that knows it.
#[cfg(not(target_os = "linux"))]
fn is_terminal(_: u32, _: &str) -> bool {
    false
}

/// The arguments and the environment of a program.
pub mod env {
    use super::fs::text_of;
    use super::HostRuntime;
    use std::io::{Error, ErrorKind, Result};

    /// The arguments of a program, with its name as the first one.
    pub type Args = std::vec::IntoIter<String>;

    /// Returns the arguments. Returns `Err` if one of them is not UTF-8.
    pub fn args(_: &HostRuntime) -> Result<Args> {
        let words = std::env::args_os().map(|word| word.into_string());
        let words: std::result::Result<Vec<String>, _> = words.collect();
        match words {
            Ok(words) => Ok(words.into_iter()),
            Err(_) => Err(Error::from(ErrorKind::InvalidData)),
        }
    }

    /// Returns the arguments, each as the text of a path.
    pub fn words(_: &HostRuntime) -> Result<Vec<String>> {
        std::env::args_os().map(text_of).collect()
    }

    /// Returns the value of a variable. Returns `Err` if it is not there or not UTF-8.
    pub fn var(_: &HostRuntime, name: &str) -> std::result::Result<String, std::env::VarError> {
        std::env::var(name)
    }
}

/// Files and folders, by the texts of their paths. On systems that are not like Unix a path is UTF-8,
/// and a file has no number and no mode.
pub mod fs {
    use super::HostRuntime;
    use std::borrow::Cow;
    use std::ffi::OsString;
    use std::io::{Read, Result};
    #[cfg(unix)]
    use std::os::unix::{
        fs::{FileExt, MetadataExt, OpenOptionsExt},
        io::AsRawFd,
    };
    use std::path::Path;

    /// What the system says of a file or a folder.
    pub struct Metadata(std::fs::Metadata);

    impl Metadata {
        /// Returns whether it is a folder.
        pub fn is_dir(&self) -> bool {
            self.0.is_dir()
        }

        /// Returns whether it is a regular file.
        pub fn is_file(&self) -> bool {
            self.0.is_file()
        }

        /// Returns the number of its bytes.
        pub fn len(&self) -> u64 {
            self.0.len()
        }

        /// Returns its permissions.
        pub fn permissions(&self) -> std::fs::Permissions {
            self.0.permissions()
        }

        /// Returns the number of its device.
        pub fn dev(&self) -> u64 {
            #[cfg(unix)]
            return self.0.dev();
            #[cfg(not(unix))]
            0
        }

        /// Returns its number there.
        pub fn ino(&self) -> u64 {
            #[cfg(unix)]
            return self.0.ino();
            #[cfg(not(unix))]
            0
        }
    }

    /// The ways to open a file.
    pub struct OpenOptions(std::fs::OpenOptions);

    impl OpenOptions {
        /// Returns the options of which none is set.
        pub fn new() -> OpenOptions {
            OpenOptions(std::fs::OpenOptions::new())
        }

        /// Sets whether the file is read.
        pub fn read(&mut self, is_read: bool) -> &mut OpenOptions {
            self.0.read(is_read);
            self
        }

        /// Sets whether the file is written.
        pub fn write(&mut self, is_written: bool) -> &mut OpenOptions {
            self.0.write(is_written);
            self
        }

        /// Sets whether the file is made, and no file may have its path.
        pub fn create_new(&mut self, is_new: bool) -> &mut OpenOptions {
            self.0.create_new(is_new);
            self
        }

        /// Sets the mode of a file that is made.
        pub fn mode(&mut self, _mode: u32) -> &mut OpenOptions {
            #[cfg(unix)]
            self.0.mode(_mode);
            self
        }
    }

    /// Returns the path of a text.
    #[cfg(unix)]
    fn path_of(text: &str) -> Cow<'_, Path> {
        use crate::proved::file_paths::{is_plain, path_bytes};
        use crate::shim::alloc::answer;
        use std::os::unix::ffi::OsStringExt;
        if is_plain(text) {
            return Cow::Borrowed(Path::new(text));
        }
        Cow::Owned(OsString::from_vec(answer(path_bytes(text))).into())
    }

    /// Returns the path of a text.
    #[cfg(not(unix))]
    fn path_of(text: &str) -> Cow<'_, Path> {
        Cow::Borrowed(Path::new(text))
    }

    /// Returns the text of a path.
    #[cfg(unix)]
    pub(super) fn text_of(path: OsString) -> Result<String> {
        use crate::proved::file_paths::path_text;
        use std::os::unix::ffi::OsStrExt;
        Ok(path_text(path.as_bytes())?)
    }

    /// Returns the text of a path. One that is not UTF-8 is an error.
    #[cfg(not(unix))]
    pub(super) fn text_of(path: OsString) -> Result<String> {
        use std::io::{Error, ErrorKind};
        let fault = |_| Error::new(ErrorKind::InvalidData, "invalid filename");
        path.into_string().map_err(fault)
    }

    /// An open file.
    pub struct File(std::fs::File);

    impl File {
        /// Returns what the system says of it.
        pub fn metadata(&self) -> Result<Metadata> {
            Ok(Metadata(self.0.metadata()?))
        }

        /// Sets its length.
        pub fn set_len(&self, length: u64) -> Result<()> {
            self.0.set_len(length)
        }

        /// Sets its permissions.
        pub fn set_permissions(&self, permissions: std::fs::Permissions) -> Result<()> {
            self.0.set_permissions(permissions)
        }

        /// Waits until what was written is on the disk.
        pub fn sync_all(&self) -> Result<()> {
            self.0.sync_all()
        }

        /// Returns the number of its descriptor, or -1 where files have none.
        pub fn as_raw_fd(&self) -> i32 {
            #[cfg(unix)]
            return self.0.as_raw_fd();
            #[cfg(not(unix))]
            -1
        }

        /// Fills a buffer with its bytes from an offset on.
        pub fn read_exact_at(&self, bytes: &mut [u8], offset: u64) -> Result<()> {
            #[cfg(unix)]
            return self.0.read_exact_at(bytes, offset);
            #[cfg(not(unix))]
            {
                use std::io::{Seek, SeekFrom};
                (&self.0).seek(SeekFrom::Start(offset))?;
                (&self.0).read_exact(bytes)
            }
        }

        /// Writes all bytes from an offset on.
        pub fn write_all_at(&self, bytes: &[u8], offset: u64) -> Result<()> {
            #[cfg(unix)]
            return self.0.write_all_at(bytes, offset);
            #[cfg(not(unix))]
            {
                use std::io::{Seek, SeekFrom, Write};
                (&self.0).seek(SeekFrom::Start(offset))?;
                (&self.0).write_all(bytes)
            }
        }
    }

    impl Read for File {
        fn read(&mut self, bytes: &mut [u8]) -> Result<usize> {
            self.0.read(bytes)
        }
    }

    impl Read for &File {
        fn read(&mut self, bytes: &mut [u8]) -> Result<usize> {
            (&self.0).read(bytes)
        }
    }

    /// Opens a file, to be read.
    pub fn open(_: &HostRuntime, path: &str) -> Result<File> {
        Ok(File(std::fs::File::open(path_of(path))?))
    }

    /// Opens a file as `options` say.
    pub fn open_with(_: &HostRuntime, options: &OpenOptions, path: &str) -> Result<File> {
        Ok(File(options.0.open(path_of(path))?))
    }

    /// Returns what a path leads to.
    pub fn metadata(_: &HostRuntime, path: &str) -> Result<Metadata> {
        Ok(Metadata(std::fs::metadata(path_of(path))?))
    }

    /// Returns what has a path, where a link is one.
    pub fn symlink_metadata(_: &HostRuntime, path: &str) -> Result<Metadata> {
        Ok(Metadata(std::fs::symlink_metadata(path_of(path))?))
    }

    /// Removes a file.
    pub fn remove_file(_: &HostRuntime, path: &str) -> Result<()> {
        std::fs::remove_file(path_of(path))
    }

    /// Returns the path from the root on, without links.
    pub fn canonicalize(_: &HostRuntime, path: &str) -> Result<String> {
        text_of(std::fs::canonicalize(path_of(path))?.into_os_string())
    }

    /// Returns the path that a link has in it.
    pub fn read_link(_: &HostRuntime, path: &str) -> Result<String> {
        text_of(std::fs::read_link(path_of(path))?.into_os_string())
    }

    /// An entry of a folder.
    pub struct DirEntry {
        name: String,
        entry: std::fs::DirEntry,
    }

    impl DirEntry {
        /// Returns its name.
        pub fn file_name(&self) -> &str {
            &self.name
        }

        /// Returns what it is, where a link is one.
        pub fn file_type(&self, _: &HostRuntime) -> Result<std::fs::FileType> {
            self.entry.file_type()
        }
    }

    /// Returns the entries of a folder, in any order.
    pub fn read_dir(_: &HostRuntime, path: &str) -> Result<Vec<DirEntry>> {
        let entry_of = |entry: std::fs::DirEntry| {
            let name = text_of(entry.file_name())?;
            Ok(DirEntry { name, entry })
        };
        std::fs::read_dir(path_of(path))?
            .map(|entry| entry_of(entry?))
            .collect()
    }
}
