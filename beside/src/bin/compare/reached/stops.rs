//! Disruptive actions in every mode, and interventions.

use beside::case::kind;
use case_format::{Intervention, Stop};

use super::walked::Unit;
use super::{Feature as F, Marks, Seen};

pub fn mark(seen: &Seen, marks: &mut Marks) {
    for unit in &seen.walked.units {
        disruptive(seen, unit, marks);
    }
    if let (Stop::New(built), Some(unit)) = (&seen.rust.intervention, seen.walked.units.last()) {
        ids(seen, built, unit, marks);
        metadata(seen, unit, marks);
        held(built, marks);
        texts(built, marks);
    }
    for (id, target) in &seen.rust.targets {
        odd_bytes(id, marks);
        odd_bytes(target, marks);
    }
}

fn disruptive(seen: &Seen, unit: &Unit, marks: &mut Marks) {
    let kinds = kind::DENY..=kind::DROP;
    let last = seen.last_of(unit.starter(), kinds.clone());
    let row = last.map_or(0, |action| action.kind as usize);
    marks.set_below(F::NoneOn, 3 * row + unit.mode_after as usize);
    let mut actions = seen.call.actions_of(unit.starter()).iter();
    let first = actions.find(|action| kinds.contains(&action.kind));
    let unlike = first.map(|action| action.kind) != last.map(|action| action.kind);
    marks.set_if(unlike, F::DisruptiveRepeated);
    let later = unit.members[1..]
        .iter()
        .any(|member| seen.count_of(*member, kinds.clone()) > 0);
    marks.set_if(last.is_none() && later, F::DisruptiveOfLaterMember);
}

fn ids(seen: &Seen, built: &Intervention, unit: &Unit, marks: &mut Marks) {
    let closing = seen.call.id_of(unit.closing());
    marks.set(match (closing, built.id) {
        (None, None) => F::StopIdsNone,
        (Some(_), None) => F::StopIdsClosing,
        (None, Some(_)) => F::StopIdsStarter,
        (Some(closing), Some(starter)) if closing == starter => F::StopIdsSame,
        _ => F::StopIdsBoth,
    });
    marks.set_if(unit.members.len() > 1, F::StopOfChain);
}

fn metadata(seen: &Seen, unit: &Unit, marks: &mut Marks) {
    let kinds = kind::ID..=kind::ACCURACY;
    let said = |action: &tivembo::Action| (action.number, seen.call.text(action.text));
    for kind in kinds.clone() {
        let actions = seen.call.actions_of(unit.starter()).iter();
        let mut of_kind = actions.filter(|action| action.kind == kind).map(said);
        let (first, last) = (of_kind.next(), of_kind.next_back());
        marks.set_if(last.is_some() && first != last, F::StopRepeated);
    }
    let later = &unit.members[1..];
    let ignored = later
        .iter()
        .any(|member| seen.count_of(*member, kind::MSG..=kind::ACCURACY) > 0);
    marks.set_if(ignored, F::StopIgnored);
    let last = seen.last_of(unit.starter(), kind::DENY..=kind::DROP);
    let is_deny = last.is_some_and(|action| action.kind == kind::DENY);
    let is_block = last.is_some_and(|action| action.kind == kind::BLOCK);
    marks.set_if(is_block && seen.case.status == 0, F::StopBlock0);
    marks.set_if(is_block && seen.case.status == u16::MAX, F::StopBlock65535);
    let status = seen.count_of(unit.starter(), kind::STATUS..=kind::STATUS) > 0;
    marks.set_if(is_deny && status, F::StopStatusAction);
}

fn held(built: &Intervention, marks: &mut Marks) {
    let present = [
        (built.log.is_some() && built.msg.is_some(), F::StopMsg),
        (built.logdata.is_some(), F::StopLogdata),
        (built.rev.is_some(), F::StopRev),
        (built.ver.is_some(), F::StopVer),
        (built.severity.is_some(), F::StopSeverity),
        (built.maturity.is_some(), F::StopMaturity),
        (built.accuracy.is_some(), F::StopAccuracy),
        (
            built.url.as_ref().is_some_and(Vec::is_empty),
            F::StopUrlEmpty,
        ),
    ];
    for (is_present, feature) in present {
        marks.set_if(is_present, feature);
    }
    let numbers = [built.severity, built.maturity, built.accuracy];
    marks.set_if(numbers.contains(&Some(255)), F::Stop255);
}

fn texts(built: &Intervention, marks: &mut Marks) {
    let texts = [
        &built.url,
        &built.msg,
        &built.logdata,
        &built.rev,
        &built.ver,
    ];
    for text in texts.into_iter().flatten() {
        marks.set_if(text.is_empty(), F::TextEmpty);
        odd_bytes(text, marks);
    }
}

fn odd_bytes(text: &[u8], marks: &mut Marks) {
    marks.set_if(text.contains(&0x00), F::Byte00);
    marks.set_if(text.contains(&0x7F), F::Byte7F);
}
