//! The Rust's list of removed ranges in the form in which 02 has the controls hold them.

/// A plain list of ranges, in any order, as 02 has it: "sorted by start, with overlapping and touching ones merged". A range
/// that starts above its end removes nothing, so it is in no such list.
pub fn merged(plain: &[(u64, u64)]) -> Vec<(u64, u64)> {
    let removing = plain.iter().copied().filter(|(start, end)| start <= end);
    let mut sorted: Vec<(u64, u64)> = removing.collect();
    sorted.sort_unstable();
    let mut merged: Vec<(u64, u64)> = Vec::new();
    for (start, end) in sorted {
        match merged.last_mut() {
            // The largest number has no follower; what comes after a range that ends there lies inside it.
            Some(last) if start <= last.1.saturating_add(1) => last.1 = last.1.max(end),
            _ => merged.push((start, end)),
        }
    }
    merged
}

#[cfg(test)]
mod tests {
    use super::*;

    const MAX: u64 = u64::MAX;

    #[test]
    fn overlapping_and_touching_ones_are_one() {
        assert_eq!(merged(&[(5, 7), (8, 9)]), [(5, 9)]);
        assert_eq!(merged(&[(8, 9), (5, 7)]), [(5, 9)]);
        assert_eq!(merged(&[(1, 5), (2, 3)]), [(1, 5)]);
        assert_eq!(merged(&[(7, 7), (7, 7)]), [(7, 7)]);
        assert_eq!(merged(&[(1, 1), (3, 3), (2, 2)]), [(1, 3)]);
        assert_eq!(merged(&[(9, 9), (1, 1), (5, 5), (0, 10)]), [(0, 10)]);
    }

    #[test]
    fn others_stay_and_are_sorted() {
        assert_eq!(merged(&[]), []);
        assert_eq!(merged(&[(4, 5), (1, 2)]), [(1, 2), (4, 5)]);
        assert_eq!(merged(&[(5, 4), (9, 0)]), []);
    }

    #[test]
    fn at_the_largest_number() {
        assert_eq!(merged(&[(MAX, MAX), (0, 0)]), [(0, 0), (MAX, MAX)]);
        let next_to_it = [(MAX, MAX), (MAX - 1, MAX - 1)];
        assert_eq!(merged(&next_to_it), [(MAX - 1, MAX)]);
        assert_eq!(merged(&[(3, MAX), (MAX, MAX), (0, 1)]), [(0, 1), (3, MAX)]);
    }
}
