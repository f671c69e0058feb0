//! The report on arguments: compares the placeholders of a format string with the arguments that are
//! given to it.
use crate::proved::placeholder_check::check as check_in;
use crate::shim::alloc::answer;
use crate::Piece;

pub use crate::proved::placeholder_check::Report;

/// Compares the arguments that the pieces use with those that are given. `positional` is the number
/// of those that are given by position, whose indices begin at 0. `names` has the names of the
/// others. Returns the report on missing and unused arguments.
///
/// The position, the width and the precision of a placeholder can each use an argument, as in the
/// documentation of `std::fmt`; but here an index never refers to an argument that is given by
/// name. A name that a call would capture from around it is missing here too, so `missing_name` is
/// the list of the variables that a call with these arguments captures.
///
/// `unused_index` has each index below `positional` that no piece uses, so do not take that number from
/// an input without a bound. `missing_index` has at most three indices for each placeholder. An allocation
/// failure aborts, as elsewhere in Rust.
///
/// ```
/// use dephungo::{report::check, ParseMode, Parser, Piece};
///
/// let pieces: Vec<Piece> = Parser::new("{1} {x:w$}", None, None, false, ParseMode::Format).collect();
/// let report = check(&pieces, 2, &["w", "z"]);
/// assert_eq!((report.missing_name, report.unused_name), (vec!["x"], vec!["z"]));
/// assert_eq!((report.missing_index, report.unused_index), (vec![], vec![0]));
/// ```
#[must_use]
pub fn check<'a>(pieces: &[Piece<'a>], positional: usize, names: &[&'a str]) -> Report<'a> {
    answer(check_in(pieces, positional, names))
}
