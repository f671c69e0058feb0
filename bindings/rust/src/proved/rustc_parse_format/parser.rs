//! The parser: each call reads one piece, up to the end of the input.

// Extracted from crates/rustc_parse_format/src/parser.rt by tools/extract: not to be edited.
// That source has the contracts, and is proved. That this text means the same is only tested.

pub mod lookahead;
