//! How actions and texts are shared.

use beside::case::kind;
use tivembo::{Action, Part};

use super::{Feature as F, Marks, Seen};

/// More rules than these are not compared in pairs.
const FEW: usize = 40;

pub fn mark(seen: &Seen, marks: &mut Marks) {
    let rules = seen.call.rules.len();
    if rules > FEW {
        return;
    }
    let mut owned = vec![0_usize; seen.call.actions.len()];
    for index in 0..rules {
        let places = seen.call.places_of(index);
        owned[places.clone()]
            .iter_mut()
            .for_each(|count| *count += 1);
        for other in 0..index {
            let others = seen.call.places_of(other);
            let common = places.start.max(others.start)..places.end.min(others.end);
            let is_same = places == others;
            marks.set_if(!common.is_empty() && is_same, F::ActionsShared);
            marks.set_if(!common.is_empty() && !is_same, F::ActionsOverlap);
        }
    }
    marks.set_if(owned.contains(&0), F::ActionsUnowned);
    let starters: Vec<_> = seen
        .walked
        .units
        .iter()
        .map(|unit| seen.call.places_of(unit.starter()))
        .collect();
    let share = |(at, one): (usize, &std::ops::Range<usize>)| {
        starters[..at]
            .iter()
            .any(|other| one.start.max(other.start) < one.end.min(other.end))
    };
    marks.set_if(starters.iter().enumerate().any(share), F::SharedUnits);
    texts(seen, marks);
}

fn has_text(action: &Action) -> bool {
    matches!(
        action.kind,
        kind::REDIRECT | kind::SKIP_AFTER | kind::MSG..=kind::VER | kind::CTL
    )
}

/// Of the rules that were evaluated as matched.
fn texts(seen: &Seen, marks: &mut Marks) {
    let mut read: Vec<Part> = Vec::new();
    for unit in &seen.walked.units {
        for action in unit
            .members
            .iter()
            .flat_map(|member| seen.call.actions_of(*member))
        {
            let is_read = has_text(action);
            marks.set_if(!is_read && action.text.len > 0, F::TextUnread);
            if is_read && action.text.len > 0 && read.len() < FEW {
                read.push(action.text);
            }
        }
    }
    let overlap = |(at, one): (usize, &Part)| {
        read[..at].iter().any(|other| {
            let (start, end) = (
                one.start.max(other.start),
                (one.start + one.len).min(other.start + other.len),
            );
            one != other && start < end
        })
    };
    marks.set_if(read.iter().enumerate().any(overlap), F::TextOverlaps);
}
