//! Allocation. In Rust an allocation failure aborts, so it is never returned as an error:
//! `AllocError` has no value, a `Result` with it is always `Ok`, and each `?` on one compiles to
//! nothing.
use alloc::string::String;
use alloc::vec::Vec;

/// An allocation failure, which is never returned: the type has no value.
#[derive(Debug)]
pub enum AllocError {}

#[cfg(feature = "std")]
impl From<AllocError> for std::io::Error {
    fn from(error: AllocError) -> std::io::Error {
        match error {}
    }
}

/// Returns the value of a call that allocates.
#[inline(always)]
pub fn answer<T>(result: Result<T, AllocError>) -> T {
    match result {
        Ok(value) => value,
        Err(refusal) => match refusal {},
    }
}

/// Answers a text that is too long for any memory, as the standard library does.
#[cold]
pub fn refuse<T>() -> Result<T, AllocError> {
    refused()
}

/// Stands for an error that is made of a refusal of memory, as the standard library does.
#[cold]
pub fn refused<T>() -> T {
    panic!("capacity overflow")
}

/// The method of `Vec` that may return an allocation failure.
pub trait VecIn<T> {
    fn try_push(&mut self, item: T) -> Result<(), AllocError>;
}

impl<T> VecIn<T> for Vec<T> {
    #[inline(always)]
    fn try_push(&mut self, item: T) -> Result<(), AllocError> {
        self.push(item);
        Ok(())
    }
}

/// The methods of `String` that may return an allocation failure.
pub trait StringIn: Sized {
    fn made_from(text: &str) -> Result<Self, AllocError>;
    fn made_from_bytes(bytes: &[u8]) -> Result<Self, AllocError>;
    fn try_push(&mut self, c: char) -> Result<(), AllocError>;
    fn try_push_str(&mut self, text: &str) -> Result<(), AllocError>;
}

impl StringIn for String {
    #[inline(always)]
    fn made_from(text: &str) -> Result<String, AllocError> {
        Ok(String::from(text))
    }

    #[inline(always)]
    fn made_from_bytes(bytes: &[u8]) -> Result<String, AllocError> {
        Ok(String::from_utf8_lossy(bytes).into_owned())
    }

    #[inline(always)]
    fn try_push(&mut self, c: char) -> Result<(), AllocError> {
        self.push(c);
        Ok(())
    }

    #[inline(always)]
    fn try_push_str(&mut self, text: &str) -> Result<(), AllocError> {
        self.push_str(text);
        Ok(())
    }
}

/// Methods of `str` that older versions of the standard library do not have, and one of which it
/// makes a copy for each part of a crate.
pub trait StrIn {
    /// Returns whether a text occurs, as `contains` of the standard library does.
    fn has_text(&self, text: &str) -> bool;

    /// Returns the last byte offset that is at most `at` and a character boundary. In the standard
    /// library this is `floor_char_boundary`, which is recent.
    fn boundary_at_most(&self, at: usize) -> usize;

    /// Returns what is before a byte offset and what is from there on, or `None` if that is no
    /// character boundary. In the standard library this is `split_at_checked`, which is recent.
    fn parts_at(&self, at: usize) -> Option<(&str, &str)>;

    /// Returns the text without the ASCII white space at its start. In the standard library this is
    /// `trim_ascii_start`, which is recent.
    fn after_ascii_space(&self) -> &str;

    /// Returns the text without the ASCII white space at its end. In the standard library this is
    /// `trim_ascii_end`, which is recent.
    fn before_ascii_space(&self) -> &str;
}

impl StrIn for str {
    #[inline(never)]
    fn has_text(&self, text: &str) -> bool {
        self.contains(text)
    }

    #[inline(always)]
    fn boundary_at_most(&self, at: usize) -> usize {
        if at >= self.len() {
            return self.len();
        }
        let mut at = at;
        while !self.is_char_boundary(at) {
            at -= 1;
        }
        at
    }

    #[inline(always)]
    fn parts_at(&self, at: usize) -> Option<(&str, &str)> {
        Some((self.get(..at)?, self.get(at..)?))
    }

    #[inline(always)]
    fn after_ascii_space(&self) -> &str {
        self.trim_start_matches(|c: char| c.is_ascii_whitespace())
    }

    #[inline(always)]
    fn before_ascii_space(&self) -> &str {
        self.trim_end_matches(|c: char| c.is_ascii_whitespace())
    }
}

/// Returns the text of bytes that are proved to be UTF-8. They are checked all the same, and a
/// mistake panics.
#[inline(always)]
pub fn proved_text(bytes: &[u8]) -> &str {
    core::str::from_utf8(bytes).expect("bytes that are proved to be UTF-8")
}

#[cfg(test)]
mod tests {
    use super::*;

    /// Each byte offset in texts with characters of each width in bytes, and past their ends.
    #[test]
    fn boundaries() {
        let parts = [
            "",
            "a",
            "é",
            "€",
            "😀",
            "\u{7f}\u{80}",
            "\u{7ff}\u{800}\u{ffff}\u{10000}",
        ];
        for (a, b) in parts.iter().flat_map(|a| parts.iter().map(move |b| (a, b))) {
            let text = format!("{a}{b}");
            let starts: Vec<usize> = text
                .char_indices()
                .map(|(at, _)| at)
                .chain([text.len()])
                .collect();
            for at in 0..text.len() + 3 {
                let wanted = starts.iter().copied().filter(|&start| start <= at).max();
                assert_eq!(Some(text.boundary_at_most(at)), wanted, "{at} in {text:?}");
                let parts = starts.contains(&at).then(|| text.split_at(at));
                assert_eq!(text.parts_at(at), parts, "{at} in {text:?}");
            }
        }
    }
}
