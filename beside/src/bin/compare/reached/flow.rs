//! Skips and jumps of the units after which the walk went on.

use beside::case::kind;

use super::walked::Unit;
use super::{Feature as F, Marks, Seen};

pub fn mark(seen: &Seen, marks: &mut Marks) {
    for unit in seen.walked.units.iter().filter(|unit| unit.went_on) {
        let flows = kind::CHAIN..=kind::MULTI_MATCH;
        let count = seen.count_of(unit.starter(), flows.clone());
        let Some(last) = seen.last_of(unit.starter(), flows.clone()) else {
            let mut later = unit.members[1..].iter();
            marks.set_if(
                later.any(|member| seen.count_of(*member, flows.clone()) > 0),
                F::FlowOfLaterMember,
            );
            continue;
        };
        marks.set_if(count > 1, F::FlowRepeated);
        match last.kind {
            kind::SKIP => skip(seen, unit, last.number, marks),
            kind::SKIP_AFTER => jump(seen, unit, seen.call.text(last.text), marks),
            _ => {
                let skips = seen.count_of(unit.starter(), kind::SKIP..=kind::SKIP_AFTER);
                marks.set_if(skips > 0, F::SkipReplaced);
                marks.set_if(last.kind == kind::CHAIN, F::ChainActionLast);
            }
        }
    }
}

/// Whether a rule was evaluated.
fn is_evaluated(seen: &Seen, index: usize) -> bool {
    let mut visits = seen.rust.visits.iter();
    visits.any(|visit| visit.0 as usize == index)
}

/// Whether a rule stands after a link.
fn is_within_chain(seen: &Seen, index: usize) -> bool {
    index > 0 && seen.call.is_link(index - 1)
}

fn skip(seen: &Seen, unit: &Unit, number: u64, marks: &mut Marks) {
    let next = unit.closing() + 1;
    let to = next.saturating_add(number as usize);
    marks.set_if(number == 0, F::Skip0);
    marks.set_if(number == 4_294_967_295, F::SkipLargest);
    marks.set_if(unit.members.len() > 1, F::SkipOfChain);
    marks.set_if(to > seen.call.rules.len(), F::SkipBeyond);
    if number == 0 || !is_evaluated(seen, to) {
        return;
    }
    marks.set(F::SkipSome);
    let within = is_within_chain(seen, to);
    let passes_link = (next..to).any(|index| seen.call.is_link(index));
    marks.set_if(!within && passes_link, F::SkipOverChain);
    let is_link = seen.call.is_link(to);
    marks.set_if(within && !is_link, F::SkipIntoClosing);
    let mut units = seen.walked.units.iter();
    let starts = units.any(|unit| unit.starter() == to);
    marks.set_if(within && is_link && starts, F::SkipIntoLink);
}

fn jump(seen: &Seen, unit: &Unit, name: &[u8], marks: &mut Marks) {
    let (next, count) = (unit.closing() + 1, seen.call.rules.len());
    let named = |marker: &&tivembo::Marker| seen.call.text(marker.name) == name;
    let mut records = seen.call.markers.iter().filter(named);
    marks.set_if(unit.members.len() > 1, F::JumpOfChain);
    marks.set_if(name.is_empty(), F::MarkerEmpty);
    let differs_in_case = |marker: &tivembo::Marker| {
        let other = seen.call.text(marker.name);
        other != name && other.eq_ignore_ascii_case(name)
    };
    marks.set_if(seen.call.markers.iter().any(differs_in_case), F::MarkerCase);
    let (first, repeated) = (records.next(), records.next_back());
    let Some(latest) = repeated.or(first) else {
        return marks.set(F::MarkerMissing);
    };
    let to = latest.position as usize;
    let leads = |to: usize| if to > next { to } else { count };
    let first = first.map_or(to, |first| first.position as usize);
    marks.set_if(repeated.is_some(), F::MarkerRepeated);
    marks.set_if(leads(first) != leads(to), F::MarkerLatest);
    marks.set_if(to == 0, F::MarkerAt0);
    marks.set_if(to < next, F::MarkerBehindUs);
    marks.set_if(to == next && to < count, F::MarkerDirectly);
    marks.set_if(to == count, F::MarkerAtEnd);
    if to > next && to < count && is_evaluated(seen, to) {
        marks.set(F::MarkerAhead);
        marks.set_if(is_within_chain(seen, to), F::MarkerIntoChain);
    }
}
