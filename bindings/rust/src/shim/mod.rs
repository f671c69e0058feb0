//! Modules that the extracted ones use in place of the standard library of the language that they
//! are proved in.
pub mod alloc;
// The programs use a part of these two.
#[allow(dead_code)]
#[cfg(feature = "programs")]
pub mod clap;
#[allow(dead_code)]
#[cfg(feature = "formatread")]
pub mod host;
#[cfg(any(feature = "lint", feature = "formatread"))]
pub mod itoa;
// The listing as JSON, which only a program writes, is all that uses it.
#[cfg(feature = "programs")]
pub mod json;
#[cfg(any(feature = "lint", feature = "formatread"))]
pub mod parser;
pub mod simd;
// Only a program uses it.
#[cfg(feature = "programs")]
pub mod strsim;
// So is the reader of manifests.
#[allow(dead_code)]
#[cfg(feature = "programs")]
pub mod toml;
pub mod unicode_ident;
#[cfg(feature = "lint")]
pub mod unicode_width;
#[cfg(feature = "lint")]
mod widths;
mod xid;

/// The traits that give the types of Rust's standard library the methods that the extracted modules
/// call, and the types that `core` does not have.
pub mod prelude {
    pub use super::alloc::{StrIn, StringIn, VecIn};
    pub use ::alloc::{boxed::Box, string::String, vec::Vec};
}

/// `format!(in alloc; ..)` without the allocator: returns the text, or `Err` if an allocation fails.
macro_rules! try_format {
    ($($words:tt)*) => {
        Ok::<_, $crate::shim::alloc::AllocError>(::alloc::format!($($words)*))
    };
}
pub(crate) use try_format;

/// `eprintln!(rt; ..)`: writes a line to standard error, and returns why that failed.
macro_rules! eprintln_in {
    ($rt:expr; $($words:tt)*) => {
        $rt.eprintln(format_args!($($words)*))
    };
}
pub(crate) use eprintln_in;

/// `eprint!(rt; ..)`: writes a text to standard error, and returns why that failed.
macro_rules! eprint_in {
    ($rt:expr; $($words:tt)*) => {
        $rt.eprint(format_args!($($words)*))
    };
}
pub(crate) use eprint_in;

pub use self::alloc::proved_text;

#[cfg(test)]
mod tests {
    /// For each character, the standard library's classes that the extracted modules use are those
    /// that the proofs are about.
    #[test]
    fn white_space_and_digits() {
        let white = |c| {
            matches!(c, '\t'..='\r' | ' ' | '\u{85}' | '\u{a0}' | '\u{1680}' | '\u{2000}'..='\u{200a}' | '\u{2028}'
                | '\u{2029}' | '\u{202f}' | '\u{205f}' | '\u{3000}')
        };
        for c in '\0'..=char::MAX {
            assert_eq!(c.is_whitespace(), white(c), "{c:?}");
            assert_eq!(c.is_ascii_digit(), "0123456789".contains(c), "{c:?}");
            let digit = "0123456789abcdef"
                .find(c.to_ascii_lowercase())
                .map(|at| at as u32);
            assert_eq!(c.to_digit(16), digit, "{c:?}");
            assert_eq!(c.to_digit(8), digit.filter(|&digit| digit < 8), "{c:?}");
            assert_eq!(c.to_string().len(), c.len_utf8(), "{c:?}");
        }
    }
}
