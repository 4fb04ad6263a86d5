//! Calls that the papers refuse, for ranges held that are not in the merged form, or for their ranges or targets.

use case_format::{Answer, Mode};

use crate::sides::{written, MOST_RANGES};

use super::{Feature as F, Marks, Seen};

pub fn mark(seen: &Seen, marks: &mut Marks) {
    let before = seen.before;
    match seen.rust.answer {
        Answer::Refused(3) => form(&before.ranges, marks),
        Answer::Refused(8) => too_many(seen, marks),
        Answer::Refused(9) => marks.set(F::Refused9),
        _ => return,
    }
    let mode = before.mode.unwrap_or(seen.case.mode);
    let is_idle = before.allowed || before.stopped || mode == Mode::Off;
    marks.set_if(is_idle || seen.call.rules.is_empty(), F::RefusedIdle);
    marks.set_if(before.calls > 0, F::RefusedLater);
}

/// What is wrong with the ranges held, where it is one thing alone.
fn form(ranges: &[(u64, u64)], marks: &mut Marks) {
    let mut wrong: Vec<F> = Vec::new();
    let is_backwards = ranges.iter().any(|(start, end)| start > end);
    wrong.extend(is_backwards.then_some(F::Refused3Backwards));
    for two in ranges.windows(2) {
        let ((start, end), next) = (two[0], two[1].0);
        wrong.extend((next < start).then_some(F::Refused3Order));
        wrong.extend((start..=end).contains(&next).then_some(F::Refused3Overlap));
        wrong.extend((end.checked_add(1) == Some(next)).then_some(F::Refused3Touch));
        marks.set_if(end == u64::MAX, F::Refused3AfterLargest);
    }
    let first = wrong[0];
    marks.set_if(wrong.iter().all(|it| *it == first), first);
}

fn too_many(seen: &Seen, marks: &mut Marks) {
    let held = &seen.before.ranges;
    let own = written(seen.call, seen.directives).0;
    let after = oracle::merged(&[&held[..], &own].concat());
    let fits = after.len() <= MOST_RANGES;
    marks.set(if fits {
        F::Refused8Merged
    } else {
        F::Refused8Above
    });
    marks.set_if(after == *held, F::Refused8Covered);
    marks.set_if(held.len() == MOST_RANGES, F::Refused8Full);
}
