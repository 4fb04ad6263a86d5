//! How the ranges that a call added lie beside those held, told by the Rust's own list of them.

use super::{Feature as F, Marks, Seen};

pub fn mark(seen: &Seen, marks: &mut Marks) {
    let (before, added) = (&seen.before.ranges, seen.added());
    let mut held = before.clone();
    for &range in added {
        let met = met(&held, range, marks);
        carried(seen, met, marks);
        if !met.is_empty() {
            ends(range, met, marks);
        }
        held.push(range);
        held = oracle::merged(&held);
    }
    marks.set_if(!added.is_empty(), F::RangesAdded);
    marks.set_if(held.len() < before.len(), F::RangesFewer);
    marks.set_if(!added.is_empty() && held == *before, F::RangesSame);
    let is_full = held.len() == 256;
    marks.set_if(is_full, F::Ranges256);
    marks.set_if(is_full && seen.plain.len() > 256, F::Ranges256Merged);
}

/// The ranges held that overlap or touch one that is added.
fn met<'a>(held: &'a [(u64, u64)], added: (u64, u64), marks: &mut Marks) -> &'a [(u64, u64)] {
    let is_before = |one: (u64, u64), next: (u64, u64)| one.1 < next.0 && next.0 - one.1 > 1;
    let before = held.iter().filter(|it| is_before(**it, added)).count();
    let after = held.iter().filter(|it| is_before(added, **it)).count();
    let met = &held[before..held.len() - after];
    match met {
        [] => {
            marks.set(match (before, after) {
                (0, 0) => F::MergeNothingHeld,
                (0, _) => F::MergeNoneFirst,
                (_, 0) => F::MergeNoneLast,
                _ => F::MergeNoneBetween,
            });
            let (least, most) = (held.first(), held.last());
            let is_next_to_0 = added.0 == 0 && most.is_some_and(|it| it.1 == u64::MAX);
            let is_next_to_end = added.1 == u64::MAX && least.is_some_and(|it| it.0 == 0);
            marks.set_if(is_next_to_0 || is_next_to_end, F::MergeNotAround);
        }
        [one] => beside_one(*one, added, marks),
        [_, _] => marks.set(F::MergeTwo),
        _ => marks.set(F::MergeSeveral),
    }
    met
}

fn beside_one(held: (u64, u64), added: (u64, u64), marks: &mut Marks) {
    let (starts_inside, ends_inside) = (held.0 <= added.0, added.1 <= held.1);
    marks.set(match (starts_inside, ends_inside) {
        (true, true) => F::MergeCovered,
        (false, false) => F::MergeCovers,
        (false, true) if added.1 < held.0 => F::MergeTouchesBelow,
        (false, true) => F::MergeOverlapsBelow,
        (true, false) if added.0 > held.1 => F::MergeTouchesAbove,
        (true, false) => F::MergeOverlapsAbove,
    });
}

/// Whether what is met was held before the first call, added by an earlier one, or by this one.
fn carried(seen: &Seen, met: &[(u64, u64)], marks: &mut Marks) {
    for range in met {
        marks.set(match (&seen.case.entry.ranges, &seen.before.ranges) {
            (entry, _) if entry.contains(range) => F::MergeEntry,
            (_, before) if before.contains(range) => F::MergeCarried,
            _ => F::MergeOwn,
        });
    }
}

/// At the first and the last of all numbers.
fn ends((start, end): (u64, u64), met: &[(u64, u64)], marks: &mut Marks) {
    marks.set_if(start == 0, F::MergeAt0);
    marks.set_if(end == u64::MAX, F::MergeAtLargest);
    let touches = |it: &(u64, u64)| {
        (it.0 == u64::MAX && end == u64::MAX - 1) || (it.1 == u64::MAX - 1 && start == u64::MAX)
    };
    marks.set_if(met.iter().any(touches), F::MergeTouchesLargest);
}
