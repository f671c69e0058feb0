//! Tokens of Rust source text, by the Rust Reference.
//!
//! There is one reading for all editions, that of the newest one: `c"a"` is a C string and `'r#a` a
//! raw lifetime, which before 2021 were two and three tokens. Prefixes and quotes that newer
//! editions only reserve, as in `f"a"` and `#"a"#`, are read as separate tokens, and reserved forms
//! of numbers as a number and other tokens after it. Each character of punctuation is a token. A
//! wrong escape, a wrong digit and the suffix `_` are faults of content, which change no token.

// Extracted from crates/rust_tokens/src/lib.rt by tools/extract: not to be edited.
// That source has the contracts, and is proved. That this text means the same is only tested.

pub(crate) mod bodies;
pub(crate) mod bytes;
pub(crate) mod ends;
pub(crate) mod first;
pub(crate) mod fronts;
pub(crate) mod kinds;
pub(crate) mod lexer;
pub(crate) mod literals;
pub(crate) mod numbers;
pub(crate) mod openings;
pub(crate) mod texts;

pub use fronts::{begins_with_word, ends_with_barrier};
pub use kinds::{Kind, Token};
pub use lexer::{first_token, skip_head, split_first_token, tokens};
pub use texts::split_first;
