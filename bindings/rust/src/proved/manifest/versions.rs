//! Editions, and versions of Rust.

// Extracted from crates/manifest/src/versions.rt by tools/extract: not to be edited.
// That source has the contracts, and is proved. That this text means the same is only tested.

/// An edition of Rust.
#[derive(Clone, Copy, PartialEq, Eq, PartialOrd, Ord)]
pub enum Edition {
    /// The edition 2015, which a package has that names none.
    Of2015,
    /// The edition 2018.
    Of2018,
    /// The edition 2021.
    Of2021,
    /// The edition 2024.
    Of2024,
}

impl Edition {
    /// Returns whether it is the edition 2021 or a later one.
    #[inline]
    pub fn is_from_2021(self) -> bool {
        matches!(self, Edition::Of2021 | Edition::Of2024)
    }
}

/// Returns the edition of a name, or `None` if there is none of this name.
#[inline(never)]
pub fn edition_named(name: &str) -> Option<Edition> {
    match name {
        "2015" => Some(Edition::Of2015),
        "2018" => Some(Edition::Of2018),
        "2021" => Some(Edition::Of2021),
        "2024" => Some(Edition::Of2024),
        _ => None,
    }
}

/// A version of Rust, without its last number.
#[derive(Clone, Copy, PartialEq, Eq)]
pub struct RustVersion {
    /// The first number.
    pub major: u32,
    /// The second number.
    pub minor: u32,
}

/// Returns the number that a text is in decimal digits without leading zeros, or `None` if it is
/// none or larger than a `u32`.
#[inline(never)]
fn number(text: &str) -> Option<u32> {
    if text.is_empty() || text.len() > 1 && text.starts_with('0') {
        return None;
    }
    let mut value = 0u32;
    for c in text.chars() {
        value = value.checked_mul(10)?.checked_add(c.to_digit(10)?)?;
    }
    Some(value)
}

/// Returns the version of Rust that one to three numbers with points between name, as in `1`,
/// `1.58` and `1.58.1`, or `None` if the name is another one.
#[inline(never)]
pub fn version_named(name: &str) -> Option<RustVersion> {
    let Some((major, rest)) = name.split_once('.') else {
        return Some(RustVersion {
            major: number(name)?,
            minor: 0,
        });
    };
    let minor = match rest.split_once('.') {
        Some((minor, patch)) => {
            number(patch)?;
            minor
        }
        None => rest,
    };
    Some(RustVersion {
        major: number(major)?,
        minor: number(minor)?,
    })
}

/// Returns whether format strings capture variables in a version of Rust: from 1.58 on.
pub fn captures_variables(version: RustVersion) -> bool {
    version.major > 1 || version.major == 1 && version.minor >= 58
}
