//! How many characters lead from one text to another.
use super::alloc::AllocError;

/// Returns the fewest characters to insert, remove or replace in one text for the other.
pub fn levenshtein(a: &str, b: &str) -> Result<usize, AllocError> {
    let b: alloc::vec::Vec<char> = b.chars().collect();
    let mut row: alloc::vec::Vec<usize> = (0..=b.len()).collect();
    for (at, c) in a.chars().enumerate() {
        let mut corner = core::mem::replace(&mut row[0], at + 1);
        for (place, other) in b.iter().enumerate() {
            let replaced = corner + usize::from(c != *other);
            corner = row[place + 1];
            row[place + 1] = replaced.min(corner + 1).min(row[place] + 1);
        }
    }
    Ok(row[b.len()])
}
