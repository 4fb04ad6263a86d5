//! Random ranges that are held before the first call.

use beside::random::Random;

use super::id;

/// Mostly in the merged form.
pub fn ranges(random: &mut Random) -> Vec<(u64, u64)> {
    let count = random.pick(&[0, 0, 0, 0, 1, 1, 2, 4, 6]);
    let drawn: Vec<(u64, u64)> = (0..count).map(|_| range(random)).collect();
    let mut held = oracle::merged(&drawn);
    if random.once_in(25) {
        spoil(random, &mut held);
    }
    held
}

fn range(random: &mut Random) -> (u64, u64) {
    let (a, b) = (id(random), id(random));
    match random.below(10) {
        0..=5 => (a, a),
        6..=7 => (a, a.saturating_add(1)),
        _ => (a.min(b), a.max(b)),
    }
}

/// Puts a range among them that is wrong there: two touch, overlap or are not sorted, or one starts above its end.
fn spoil(random: &mut Random, held: &mut Vec<(u64, u64)>) {
    if held.is_empty() {
        held.push(range(random));
    }
    let at = random.below(held.len());
    let (start, end) = held[at];
    let (next, lower) = (end.saturating_add(1), start / 2);
    match random.below(5) {
        0 => held.insert(at + 1, (next, next)),
        1 => held.insert(at + 1, (end, end)),
        2 => held.insert(at + 1, (lower, lower)),
        3 => held[at] = (end.max(1), start.max(1) - 1),
        // A sum that wraps would have this one above.
        _ => {
            held.truncate(at);
            held.extend([(start, u64::MAX), (1, 1)]);
        }
    }
}
