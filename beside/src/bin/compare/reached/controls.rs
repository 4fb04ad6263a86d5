//! What controls set, and which ids ranges remove.

use beside::case::kind;
use beside::model::trimmed;
use case_format::Mode;
use oracle::CtlDirective;

use super::walked::Unit;
use super::{has, Feature as F, Marks, Seen};

/// The supported directives as the manual writes them.
const NAMES: [&[u8]; 5] = [
    b"ruleEngine",
    b"ruleRemoveById",
    b"ruleRemoveTargetById",
    b"requestBodyAccess",
    b"requestBodyProcessor",
];

pub fn mark(seen: &Seen, marks: &mut Marks) {
    for unit in &seen.walked.units {
        modes(seen, unit, marks);
        directives(seen, unit, marks);
    }
    settings(seen, marks);
    for &(index, _) in &seen.walked.removed {
        let id = seen.call.id_of(index).expect("a removed rule has an id");
        removed(seen, id, marks);
    }
    for &(index, _) in &seen.rust.visits {
        evaluated(seen, index as usize, marks);
    }
}

/// The directives of a rule's ctl actions, with the actions.
fn of_rule<'a>(
    seen: &'a Seen,
    rule: usize,
) -> impl Iterator<Item = (&'a tivembo::Action, &'a CtlDirective)> {
    let places = seen.call.places_of(rule);
    let read = seen.directives[places.clone()].iter();
    let actions = seen.call.actions[places].iter().zip(read);
    actions.filter_map(|(action, read)| Some((action, read.as_ref()?)))
}

fn modes(seen: &Seen, unit: &Unit, marks: &mut Marks) {
    let disruptive = seen.last_of(unit.starter(), kind::DENY..=kind::DROP);
    let would_stop = disruptive.is_some_and(|a| a.kind != kind::PASS && a.kind != kind::ALLOW);
    let (was_on, is_on) = (unit.mode_before == Mode::On, unit.mode_after == Mode::On);
    marks.set_if(would_stop && was_on && !is_on, F::ModeSpares);
    marks.set_if(would_stop && !was_on && is_on, F::ModeStops);
    let has_rest = unit.closing() + 1 < seen.call.rules.len();
    marks.set_if(unit.mode_after == Mode::Off && has_rest, F::ModeOffEnds);
    let mut set = Vec::new();
    for &member in &unit.members {
        for (_, directive) in of_rule(seen, member) {
            if let CtlDirective::RuleEngine(mode) = directive {
                set.push(*mode);
                marks.set_if(member != unit.closing(), F::ModeOfLink);
            }
        }
    }
    let unlike = set.windows(2).any(|two| two[0] != two[1]);
    marks.set_if(unlike, F::ModeTwice);
}

fn directives(seen: &Seen, unit: &Unit, marks: &mut Marks) {
    for &member in &unit.members {
        for (action, directive) in of_rule(seen, member) {
            if let CtlDirective::Unsupported { .. } = directive {
                continue;
            }
            let (name, value) = (seen.call.text(action.text), seen.call.text(action.value));
            let plain = trimmed(name);
            marks.set_if(!NAMES.contains(&plain), F::NameFolded);
            marks.set_if(plain != name, F::NameTrimmed);
            marks.set_if(trimmed(value) != value, F::ValueTrimmed);
        }
    }
}

fn settings(seen: &Seen, marks: &mut Marks) {
    let rust = seen.rust;
    for (set, first) in [
        (rust.mode.map(|mode| mode.number()), F::SetOn),
        (rust.body_access.map(|on| u64::from(!on)), F::AccessOn),
        (rust.body_processor.map(|it| it.number()), F::Urlencoded),
    ] {
        if let Some(line) = set {
            marks.set_below(first, line as usize);
        }
    }
    marks.set_if(!rust.targets.is_empty(), F::TargetAdded);
    let dropped = rust
        .targets
        .iter()
        .any(|(_, target)| target.starts_with(b"NOTHING"));
    marks.set_if(dropped, F::TargetDropped);
    let next_to = |unit: &Unit| {
        let (next, removed) = (unit.closing() + 1, &seen.walked.removed);
        let is_new = |id: u64| !has(&seen.before.ranges, id);
        let is_next = removed.iter().any(|(index, _)| *index == next);
        is_next && seen.call.id_of(next).is_some_and(is_new)
    };
    marks.set_if(seen.walked.units.iter().any(next_to), F::RemovesNext);
}

fn removed(seen: &Seen, id: u64, marks: &mut Marks) {
    marks.set_if(id == 0, F::RangeAll);
    marks.set_if(id == u64::MAX, F::RangeLargest);
    for &(start, end) in &seen.rust.ranges {
        marks.set_if(id == start && id <= end, F::RangeStart);
        marks.set_if(id == end && id > start, F::RangeEnd);
        marks.set_if(start < id && id < end, F::RangeInside);
    }
}

/// Ids that the ranges held before the call just miss, or would remove.
fn evaluated(seen: &Seen, index: usize, marks: &mut Marks) {
    for &(start, end) in &seen.before.ranges {
        match seen.call.id_of(index) {
            Some(id) => {
                marks.set_if(id.checked_add(1) == Some(start), F::RangeBelow);
                marks.set_if(end.checked_add(1) == Some(id), F::RangeAbove);
            }
            None => {
                let number = seen.call.rules[index].id;
                marks.set_if((start..=end).contains(&number), F::RangeNoId);
            }
        }
    }
}
