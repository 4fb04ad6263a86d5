//! Chains and units, their ids and data.

use beside::case::{kind, outcome};
use oracle::CtlDirective;

use super::walked::Unit;
use super::{Feature as F, Marks, Seen};

pub fn mark(seen: &Seen, marks: &mut Marks) {
    let walked = &seen.walked;
    for unit in &walked.units {
        marks.set_below(F::Unit1, unit.members.len().min(11) - 1);
        ids(seen, unit, marks);
        data(seen, unit, marks);
    }
    marks.set_if(walked.units.len() > 2, F::UnitsMany);
    missed(seen, marks);
    removed(seen, marks);
    marks.set_if(!walked.left_open.is_empty(), F::LeftOpen);
    let count = seen.call.rules.len();
    let last_is_link = !walked.is_idle && seen.call.is_link(count - 1);
    marks.set_if(last_is_link, F::LastIsLink);
    let is_control =
        |directive: &CtlDirective| !matches!(directive, CtlDirective::Unsupported { .. });
    let lost = walked.lost.iter().any(|link| {
        let mut directives = seen.directives[seen.call.places_of(*link)].iter().flatten();
        directives.any(is_control)
    });
    marks.set_if(lost, F::LostControls);
}

fn missed(seen: &Seen, marks: &mut Marks) {
    for &(index, open) in &seen.walked.missed {
        marks.set(match (seen.call.is_link(index), open) {
            (true, 0) => F::MissedStarter,
            (true, _) => F::MissedLink,
            (false, 0) => F::MissedAlone,
            (false, _) => F::MissedClosing,
        });
    }
}

fn removed(seen: &Seen, marks: &mut Marks) {
    let walked = &seen.walked;
    for &(index, in_chain) in &walked.removed {
        let around = |unit: &Unit| unit.starter() < index && index < unit.closing();
        marks.set(match (seen.call.is_link(index), in_chain) {
            (true, false) => F::RemovedStarter,
            (true, true) => F::RemovedLink,
            (false, false) => F::RemovedAlone,
            (false, true) if walked.units.iter().any(around) => F::RemovedInChain,
            (false, true) if !walked.left_open.is_empty() => F::RemovedInChainOpen,
            (false, true) => continue,
        });
    }
}

fn ids(seen: &Seen, unit: &Unit, marks: &mut Marks) {
    let starter = seen.call.id_of(unit.starter());
    let closing = seen.call.id_of(unit.closing());
    marks.set_if(starter == Some(0), F::Id0);
    marks.set_if(starter == Some(u64::MAX), F::IdLargest);
    marks.set_if(starter.is_none(), F::IdNone);
    let is_other = unit.members.len() > 1 && closing.is_some() && closing != starter;
    marks.set_if(is_other, F::IdOfStarterOnly);
    let id_action = seen.last_of(unit.starter(), kind::ID..=kind::ID);
    let is_unlike = id_action.is_some_and(|action| Some(action.number) != starter);
    marks.set_if(is_unlike, F::IdActionUnlike);
    let several = seen.count_of(unit.starter(), kind::ID..=kind::ID) > 1;
    marks.set_if(several, F::IdActionsSeveral);
}

fn data(seen: &Seen, unit: &Unit, marks: &mut Marks) {
    let starter = seen.call.id_of(unit.starter());
    let has = |member: usize, which| seen.call.outcomes[member] == which;
    let mut with_variable = false;
    for &member in &unit.members {
        if has(member, outcome::MATCHED_VARIABLE) {
            let own = seen.call.id_of(member);
            let is_later = member != unit.starter();
            marks.set_if(is_later && own.is_some() && own != starter, F::DataOwn);
            marks.set_if(own.is_none() && starter.is_some(), F::DataStarter);
            marks.set_if(own.is_none() && starter.is_none(), F::DataNone);
            with_variable = true;
        }
    }
    let without = unit
        .members
        .iter()
        .any(|member| has(*member, outcome::MATCHED));
    marks.set_if(with_variable && without, F::DataSome);
}
