//! What a case gives, as the crate `tivembo` takes it.

use case_format::{Action, Call, Entry, Mode};
use tivembo::{
    Act, HostControls, HostIntervention, HostTransaction, Outcome, RuleSet, Transaction,
    MOST_RANGES,
};

/// A transaction that holds this. It has the ranges as they stand, merged or not, and counts all of them, also where it has no place
/// for them: the papers turn its calls away.
pub fn transaction(entry: &Entry) -> Transaction {
    let mut controls = HostControls {
        mode: entry.mode.map_or(0, |mode| 1 + mode.number()),
        access: entry.body_access.map_or(0, |on| if on { 1 } else { 2 }),
        processor: entry.body_processor.map_or(0, |name| 1 + name.number()),
        ranges: entry.ranges.len() as u64,
        ..HostControls::default()
    };
    for (at, range) in entry.ranges.iter().take(MOST_RANGES).enumerate() {
        (controls.starts[at], controls.ends[at]) = *range;
    }
    let record = HostTransaction {
        controls,
        allowed: u64::from(entry.allowed),
        intervention: HostIntervention {
            present: u64::from(entry.stopped),
            ..HostIntervention::default()
        },
        ..HostTransaction::default()
    };
    Transaction::from_record(record, Vec::new(), Vec::new())
}

pub fn rule_set(call: &Call) -> RuleSet {
    let mut rules = RuleSet::builder();
    for rule in &call.rules {
        let actions: Vec<Act> = rule.actions.iter().map(act).collect();
        rules.rule(rule.id, rule.link, &actions);
    }
    for marker in &call.markers {
        rules.marker_at(&marker.name, marker.position);
    }
    rules.build_as_given()
}

fn act(action: &Action) -> Act<'_> {
    let kind = action.kind().number();
    let act = Act::of(kind, action.number(), action.text(), action.value());
    act.expect("both have 01's kinds")
}

pub fn mode(mode: Mode) -> tivembo::Mode {
    tivembo::Mode::from_number(mode.number()).expect("both have 01's modes")
}

pub fn outcomes(call: &Call) -> Vec<Outcome> {
    let outcome = |outcome| match outcome {
        case_format::Outcome::Missed => Outcome::Missed,
        case_format::Outcome::Matched => Outcome::Matched,
        case_format::Outcome::MatchedVariable => Outcome::MatchedVariable,
        case_format::Outcome::Error => Outcome::Error,
    };
    let rules = call.rules.iter();
    rules.map(|rule| outcome(rule.outcome)).collect()
}
