//! A stream that keeps the error of a call that fails, and goes on after one that is interrupted.

// Extracted from crates/lint_program/src/recorder.rt by tools/extract: not to be edited.
// That source has the contracts, and is proved. That this text means the same is only tested.

use std::io::{Error, ErrorKind, Read, Result, Write};

/// A stream with the last error that it returned.
pub struct Recorder<S> {
    /// The stream.
    pub stream: S,
    /// The last error, or `None`.
    pub error: Option<Error>,
}

impl<S> Recorder<S> {
    /// Returns the recorder of a stream that returned no error.
    #[inline]
    pub fn new(stream: S) -> Recorder<S> {
        Recorder {
            stream,
            error: None,
        }
    }

    /// Keeps an error, and returns one of its kind.
    fn keep(&mut self, error: Error) -> Error {
        let kind = error.kind();
        self.error = Some(error);
        Error::from(kind)
    }
}

impl<R: Read> Read for Recorder<R> {
    #[inline(never)]
    fn read(&mut self, buf: &mut [u8]) -> Result<usize> {
        for _ in 0..u64::MAX {
            match self.stream.read(buf) {
                Ok(count) => return Ok(count),
                Err(error) if error.kind() == ErrorKind::Interrupted => {}
                Err(error) => return Err(self.keep(error)),
            }
        }
        Err(Error::from(ErrorKind::Interrupted))
    }
}

impl<W: Write> Write for Recorder<W> {
    #[inline(never)]
    fn write(&mut self, buf: &[u8]) -> Result<usize> {
        for _ in 0..u64::MAX {
            match self.stream.write(buf) {
                Ok(count) => return Ok(count),
                Err(error) if error.kind() == ErrorKind::Interrupted => {}
                Err(error) => return Err(self.keep(error)),
            }
        }
        Err(Error::from(ErrorKind::Interrupted))
    }

    #[inline]
    fn flush(&mut self) -> Result<()> {
        self.stream.flush()
    }
}
