//! The unsupported directive that a call told, and those of rules that it does not tell.

use case_format::{Answer, Stop, Unsupported};
use oracle::CtlDirective;

use crate::sides::told;

use super::{Feature as F, Marks, Seen};

pub fn mark(seen: &Seen, marks: &mut Marks) {
    match seen.rust.unsupported {
        Some(first) => told_one(seen, first, marks),
        None => told_none(seen, marks),
    }
}

/// The published sentences of a rule's unsupported directives, in order.
fn sentences<'a>(seen: &'a Seen, rule: usize) -> impl Iterator<Item = &'static str> + 'a {
    let directives = seen.directives[seen.call.places_of(rule)].iter().flatten();
    directives.filter_map(|directive| match directive {
        CtlDirective::Unsupported { reason, .. } => Some(*reason),
        _ => None,
    })
}

fn has_one(seen: &Seen, rule: usize) -> bool {
    sentences(seen, rule).next().is_some()
}

fn told_one(seen: &Seen, first: Unsupported, marks: &mut Marks) {
    let (rule, units) = (first.rule as usize, &seen.walked.units);
    marks.set_below(F::UnsupportedMode, first.reason.number() as usize - 1);
    let at = units.iter().position(|unit| unit.members.contains(&rule));
    let at = at.expect("the directive is of a closed unit");
    let unit = &units[at];
    marks.set(match (unit.members.len(), rule == unit.closing()) {
        (1, _) => F::UnsupportedAlone,
        (_, false) => F::UnsupportedOfLink,
        (_, true) => F::UnsupportedOfClosing,
    });
    let unlike = sentences(seen, rule).any(|it| oracle::reason(it) != first.reason);
    marks.set_if(unlike, F::UnsupportedActions);
    let mut others = unit.members.iter().filter(|member| **member != rule);
    marks.set_if(others.any(|it| has_one(seen, *it)), F::UnsupportedMembers);
    let mut later = units[at + 1..].iter().flat_map(|unit| &unit.members);
    marks.set_if(later.any(|it| has_one(seen, *it)), F::UnsupportedUnits);
    let is_last = at + 1 == units.len();
    let stops = matches!(seen.rust.intervention, Stop::New(_));
    marks.set_if(is_last && stops, F::UnsupportedStops);
    marks.set_if(is_last && seen.rust.allowed, F::UnsupportedAllows);
    let in_error = matches!(seen.rust.answer, Answer::RuleError(_));
    marks.set_if(in_error, F::UnsupportedError);
    let told = told(seen.call, seen.directives, seen.rust);
    let repeated = told.is_some_and(|told| seen.before.told.contains(&told));
    marks.set_if(repeated, F::UnsupportedRepeated);
}

fn told_none(seen: &Seen, marks: &mut Marks) {
    let walked = &seen.walked;
    let missed = walked.missed.iter().map(|(index, _)| *index);
    let removed = walked.removed.iter().map(|(index, _)| *index);
    for (rules, feature) in [
        (walked.lost.clone(), F::UnsupportedBroken),
        (walked.left_open.clone(), F::UnsupportedLeftOpen),
        (missed.collect(), F::UnsupportedMissed),
        (removed.collect(), F::UnsupportedRemoved),
    ] {
        let has_one = rules.iter().any(|rule| has_one(seen, *rule));
        marks.set_if(has_one, feature);
    }
}
