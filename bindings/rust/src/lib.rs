#![cfg_attr(feature = "lint", doc = include_str!("../README.md"))]
#![cfg_attr(
    not(feature = "lint"),
    doc = "The parser of format strings, with the types and calls of `rustc_parse_format`."
)]
#![forbid(unsafe_code)]
// (the unit tests always have `std`)
#![cfg_attr(not(any(test, feature = "std")), no_std)]

extern crate alloc;

#[cfg(feature = "lint")]
pub mod faults;
#[cfg(feature = "lint")]
pub mod literal;
mod parser;
#[cfg(feature = "formatread")]
pub mod programs;
// These sources are extracted from another language. It lacks some forms that clippy wants, and has
// parameters that only its contracts read, or that only give the allocator there; public items of
// one of its crates may be unused here, and the error of a failed allocation has no value here.
#[allow(dead_code, unused_variables, irrefutable_let_patterns, clippy::all)]
#[deny(clippy::incompatible_msrv)]
mod proved;
#[cfg(feature = "lint")]
pub mod report;
// Without the programs a part of it is unused.
#[cfg_attr(not(feature = "programs"), allow(dead_code, unused_imports, unused_macros))]
mod shim;
#[cfg(feature = "lint")]
pub mod source;
#[cfg(feature = "lint")]
pub mod tokens;

pub use parser::Parser;
pub use proved::rustc_parse_format::{
    Alignment, Argument, Count, DebugHex, FormatSpec, ParseError, ParseMode, Piece, Position, Sign,
    Suggestion,
};
pub use Alignment::*;
pub use Count::*;
pub use Position::*;
