//! The distance of texts, as the crate `strsim` has it, where memory may run out.

#![deny(unsafe_op_in_unsafe_fn)]

use plain_std::alloc::{AllocError, Global};
use plain_std::vec::Vec;

/// Returns how many characters are to be put in, taken out or replaced to make one text of the
/// other (Levenshtein's distance).
pub fn levenshtein(alloc: Global, a: &str, b: &str) -> Result<usize, AllocError> {
    // The distances of what was read of `a` from each start of `b`.
    let mut row = Vec::new(alloc);
    for distance in 0..=b.chars().count() {
        row.push(distance)?;
    }
    for (index, of_a) in a.chars().enumerate() {
        let mut diagonal = row[0];
        row[0] = index + 1;
        for (column, of_b) in b.chars().enumerate() {
            let replaced = diagonal + usize::from(of_a != of_b);
            diagonal = row[column + 1];
            row[column + 1] = replaced.min(diagonal + 1).min(row[column] + 1);
        }
    }
    Ok(row[row.len() - 1])
}

#[cfg(test)]
mod tests {
    use super::levenshtein;
    use plain_std::alloc::Global;

    #[test]
    fn distances_are_those_of_the_literature() {
        let cases = [
            ("kitten", "sitting", 3),
            ("", "abc", 3),
            ("flaw", "lawn", 2),
            ("é", "e", 1),
        ];
        for (a, b, distance) in cases {
            assert_eq!(levenshtein(Global, a, b), Ok(distance));
            assert_eq!(levenshtein(Global, b, a), Ok(distance));
        }
    }
}
