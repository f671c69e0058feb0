//! The faults of a text, as plain data.

// Extracted from crates/message_faults/src/faults.rt by tools/extract: not to be edited.
// That source has the contracts, and is proved. That this text means the same is only tested.

use crate::proved::rustc_parse_format::Fault;
use crate::proved::text_faults::Spot;

/// A fault of a text of an attribute. All are warnings.
pub enum MessageFault<'a> {
    /// The text is not in the grammar. No other fault follows.
    Text(Fault<'a>),
    /// A placeholder has something after a colon.
    Specifier {
        /// The colon, and what is after it.
        spot: Spot,
    },
    /// The position of a placeholder is a number, or there is none.
    Positional {
        /// The position.
        spot: Spot,
    },
    /// A name is that of no parameter of the trait.
    MissingParameter {
        /// The name in the placeholder.
        spot: Spot,
        /// The name.
        name: &'a str,
    },
}
