//! The faults in the arguments of a call whose format string is not read ([`form_here`]), the paths
//! of macros, and the generic parameters of traits.

// Extracted from crates/call_forms/src/lib.rt by tools/extract: not to be edited.
// That source has the contracts, and is proved. That this text means the same is only tested.

pub(crate) mod commas;
pub(crate) mod expressions;
pub(crate) mod forms;
pub(crate) mod generics;
pub(crate) mod keywords;
pub(crate) mod operators;
pub(crate) mod paths;

pub use commas::ExpectedTokens;
pub use expressions::{have_joined, have_variables, tokens_of};
pub use forms::{form_here, Form};
pub use generics::parameters;
pub use keywords::kind_word;
pub use operators::{lacks_operand, Operator};
pub use paths::{is_foreign, is_in_path};
