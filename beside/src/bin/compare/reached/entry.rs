//! How a call is entered, how large it is and how it is answered.

use beside::case::outcome;
use case_format::{Answer, Mode};

use super::{has, Feature as F, Marks, Seen};

pub fn mark(seen: &Seen, marks: &mut Marks) {
    marks.set_below(F::Phase1, seen.call.phase as usize - 1);
    marks.set_below(F::RuleSetOn, seen.case.mode as usize);
    match seen.case.status {
        0 => marks.set(F::Status0),
        65_535 => marks.set(F::Status65535),
        403 => {}
        _ => marks.set(F::StatusBetween),
    }
    held(seen, marks);
    sizes(seen, marks);
    answers(seen, marks);
}

fn held(seen: &Seen, marks: &mut Marks) {
    let (before, entry) = (seen.before, &seen.case.entry);
    let in_force = before.mode.unwrap_or(seen.case.mode);
    let overruled = seen.case.mode == Mode::Off && in_force != Mode::Off;
    marks.set_if(overruled, F::OffOverruled);
    marks.set_if(in_force == Mode::Off, F::OffAtEntry);
    marks.set_if(entry.allowed, F::Allowed);
    marks.set_if(entry.stopped, F::Stopped);
    if before.calls == 0 {
        return;
    }
    marks.set(if before.calls == 1 {
        F::SecondCall
    } else {
        F::LaterCall
    });
    let is_same = before.phase == seen.call.phase;
    marks.set(if is_same { F::SamePhase } else { F::OtherPhase });
    marks.set_if(before.mode != entry.mode, F::ModeCarried);
    marks.set_if(before.ranges != entry.ranges, F::RangesCarried);
    marks.set_if(before.targets > 0, F::TargetsCarried);
    marks.set_if(before.allowed && !entry.allowed, F::AllowedCarried);
    marks.set_if(before.stopped && !entry.stopped, F::StoppedCarried);
    let is_carried = |&(index, _): &(usize, bool)| {
        let id = seen.call.id_of(index);
        id.is_some_and(|id| has(&before.ranges, id) && !has(&entry.ranges, id))
    };
    let removed = seen.walked.removed.iter().any(is_carried);
    marks.set_if(removed, F::RemovedByCarried);
}

fn sizes(seen: &Seen, marks: &mut Marks) {
    let call = seen.call;
    marks.set(match call.rules.len() {
        0 => F::Rules0,
        1 => F::Rules1,
        2..=12 => F::Rules2,
        13..=511 => F::Rules13,
        _ => F::Rules512,
    });
    marks.set_if(call.actions.len() == 4_096, F::Actions4096);
    marks.set_if(call.markers.len() == 256, F::Markers256);
    marks.set_if(call.text.len() == 65_536, F::Text65536);
    let targets = seen.before.targets + seen.rust.targets.len();
    marks.set_if(targets == 64, F::Targets64);
}

fn answers(seen: &Seen, marks: &mut Marks) {
    let (rust, walked) = (seen.rust, &seen.walked);
    marks.set_if(rust.answer == Answer::Done, F::Answer0);
    if let Answer::RuleError(index) = rust.answer {
        marks.set(F::Answer10);
        marks.set_if(index == 0, F::ErrorFirst);
        marks.set_if(!walked.units.is_empty(), F::ErrorAfterUnit);
        marks.set_if(walked.open_at_error > 0, F::ErrorInChain);
    }
    let is_error = |index: usize| seen.call.outcomes[index] == outcome::ERROR;
    let removed = walked.removed.iter().any(|(index, _)| is_error(*index));
    marks.set_if(removed, F::ErrorRemoved);
    let last = rust.visits.last().map_or(0, |visit| visit.0 as usize);
    let passed = (0..last).any(is_error);
    marks.set_if(passed && !removed, F::ErrorPassed);
}
