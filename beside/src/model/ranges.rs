//! Ranges as 02 has the controls hold them: "sorted by start, with overlapping and touching ones merged".

/// What the ids of a plain list are as ranges. One starts where an id is removed and the id below it is not, and ends where an
/// id is removed and the id above it is not; "18446744073709551615 has no follower". With `touching_apart` two ids that
/// follow each other belong together only where one range of the list has both.
pub fn merged(plain: &[(u64, u64)], touching_apart: bool) -> Vec<(u64, u64)> {
    let has = |range: &(u64, u64), id: u64| range.0 <= id && id <= range.1;
    let belongs_to_next = |id: u64| {
        let Some(next) = id.checked_add(1) else {
            return false;
        };
        match touching_apart {
            true => plain.iter().any(|it| has(it, id) && has(it, next)),
            false => plain.iter().any(|it| has(it, id)) && plain.iter().any(|it| has(it, next)),
        }
    };
    let removing = || plain.iter().filter(|(start, end)| start <= end);
    let is_start = |id: &u64| id.checked_sub(1).is_none_or(|last| !belongs_to_next(last));
    let starts = rising(removing().map(|range| range.0).filter(is_start));
    let ends = rising(
        removing()
            .map(|range| range.1)
            .filter(|id| !belongs_to_next(*id)),
    );
    starts.into_iter().zip(ends).collect()
}

fn rising(numbers: impl Iterator<Item = u64>) -> Vec<u64> {
    let numbers: std::collections::BTreeSet<u64> = numbers.collect();
    numbers.into_iter().collect()
}

/// The same with each end the smallest among the ranges that are one: a wrong reading.
pub fn with_smallest_ends(plain: &[(u64, u64)]) -> Vec<(u64, u64)> {
    let smallest = |(start, end): (u64, u64)| {
        let within = plain.iter().filter(|it| start <= it.0 && it.1 <= end);
        let ends = within.filter(|it| it.0 <= it.1).map(|it| it.1);
        (start, ends.min().unwrap_or(end))
    };
    merged(plain, false).into_iter().map(smallest).collect()
}

#[cfg(test)]
mod tests {
    use super::*;

    const MAX: u64 = u64::MAX;

    #[test]
    fn the_papers_examples() {
        assert_eq!(merged(&[(5, 7), (8, 9)], false), [(5, 9)]);
        assert_eq!(merged(&[(1, 1), (3, 3), (2, 2)], false), [(1, 3)]);
        assert_eq!(merged(&[(4, 5), (1, 2)], false), [(1, 2), (4, 5)]);
        assert_eq!(merged(&[(2, 8), (1, 1), (4, 5)], false), [(1, 8)]);
        assert_eq!(merged(&[(5, 4)], false), []);
        assert_eq!(merged(&[(MAX, MAX), (0, 0)], false), [(0, 0), (MAX, MAX)]);
        assert_eq!(merged(&[(MAX, MAX), (7, MAX - 1)], false), [(7, MAX)]);
    }

    #[test]
    fn wrong_readings() {
        assert_eq!(merged(&[(8, 9), (5, 7)], true), [(5, 7), (8, 9)]);
        assert_eq!(merged(&[(5, 8), (7, 9)], true), [(5, 9)]);
        assert_eq!(with_smallest_ends(&[(1, 5), (2, 3)]), [(1, 3)]);
        assert_eq!(with_smallest_ends(&[(1, 5), (7, 7)]), [(1, 5), (7, 7)]);
    }
}
