//! The library has the records as they are declared: every number of every record is written or read by a call, with values
//! that all differ, so that two exchanged fields, or one at another offset, would be seen. tests/layout.rs has the sizes and
//! offsets that follow from the sources.

use tivembo::raw::{self, Lent, Lists};
use tivembo::{
    Act, Action, CallSettings, DataEntry, HostAnswer, HostControls, HostIntervention, HostMetadata,
    HostNumber, HostPlace, HostTransaction, JournalEntry, Marker, Part, Report, Rule, RuleSet,
    UnsupportedAt, MOST_RANGES, MOST_TARGETS,
};

/// Controls in which every number of the arrays differs.
fn pattern() -> HostControls {
    let list = |first: u64| move |at: usize| first + 10 * at as u64;
    HostControls {
        starts: std::array::from_fn(list(1_000_001)),
        ends: std::array::from_fn(list(1_000_005)),
        phases: std::array::from_fn(list(3_000_000)),
        positions: std::array::from_fn(list(4_000_000)),
        ..HostControls::default()
    }
}

#[test]
fn every_number_of_the_controls_is_read() {
    let held = HostControls {
        mode: 2,
        access: 2,
        processor: 4,
        ranges: MOST_RANGES as u64,
        targets: MOST_TARGETS as u64,
        ..pattern()
    };
    assert_eq!(raw::engine_mode(held, 0).value, 1);
    assert_eq!(raw::request_body_access(held).value, 1);
    assert_eq!(raw::request_body_processor(held).value, 4);
    assert_eq!(raw::target_count(held).value, MOST_TARGETS as u64);
    for at in 0..MOST_RANGES {
        let asked = |id: u64| raw::is_rule_removed(held, Some(id).into()).value;
        let (start, end) = (held.starts[at], held.ends[at]);
        let around = [start - 1, start, end, end + 1];
        assert_eq!(around.map(asked), [0, 1, 1, 0], "range {at}");
    }
    for at in 0..MOST_TARGETS {
        let (phase, position) = (held.phases[at], held.positions[at]);
        let found = raw::target_at(held, at as u64).target;
        let expected = HostPlace {
            present: 1,
            phase,
            position,
        };
        assert_eq!(found, expected, "target {at}");
    }
}

/// Each range goes before those held, so that all of them move; the places after them are cleared.
#[test]
fn every_number_of_the_controls_is_written() {
    let mut held = pattern();
    held.starts.fill(0);
    held.ends.fill(0);
    for at in 0..MOST_RANGES {
        let (start, end) = (8_000 - 10 * at as u64, 8_005 - 10 * at as u64);
        let given = if at == 0 { pattern() } else { held };
        let changed = raw::remove_range(given, start, end);
        held.starts.copy_within(..at, 1);
        held.ends.copy_within(..at, 1);
        (held.starts[0], held.ends[0]) = (start, end);
        held.ranges += 1;
        assert_eq!((changed.answer, changed.controls), (0, held), "range {at}");
    }
    for at in 0..MOST_TARGETS {
        let (phase, position) = (1 + at as u64, 5_000 + at as u64);
        let changed = raw::remove_target(held, phase, position);
        (held.phases[at], held.positions[at]) = (phase, position);
        held.targets += 1;
        assert_eq!((changed.answer, changed.controls), (0, held), "target {at}");
    }
}

/// A link that starts a unit, with an action of every kind that is kept, and the rule that closes it.
fn rules(stops: Act) -> RuleSet {
    let mut rules = RuleSet::builder();
    let actions = [
        Act::Id(77),
        stops,
        Act::Msg(b"m"),
        Act::LogData(b"l"),
        Act::Rev(b"r"),
        Act::Ver(b"v"),
        Act::Severity(61),
        Act::Maturity(62),
        Act::Accuracy(63),
        Act::Ctl(b"ruleEngine", b"On"),
        Act::Ctl(b"requestBodyAccess", b"Off"),
        Act::Ctl(b"requestBodyProcessor", b"JSON"),
        Act::Ctl(b"ruleRemoveById", b"500-600,700"),
        Act::Ctl(b"ruleRemoveTargetById", b"1;ARGS"),
    ];
    rules.rule(Some(20), true, &actions);
    rules.rule(Some(21), false, &[]);
    rules.build().expect("within the limits")
}

fn place(position: u64) -> HostPlace {
    HostPlace {
        present: 1,
        phase: 3,
        position,
    }
}

fn number(value: u64) -> HostNumber {
    HostNumber { present: 1, value }
}

/// What the unit leaves, in a transaction that held three ranges and two targets; its own ranges stand before these.
fn expected(status: u64, url: HostPlace, drop: u64) -> HostTransaction {
    let intervention = HostIntervention {
        present: 1,
        status,
        url,
        log: place(2),
        closing: number(21),
        starter: number(77),
        phase: 3,
        drop,
        metadata: metadata(),
    };
    HostTransaction {
        controls: controls(),
        allowed: 0,
        intervention,
        ids: 5,
        entries: 4,
    }
}

fn controls() -> HostControls {
    let mut controls = HostControls {
        mode: 1,
        access: 2,
        processor: 3,
        ranges: 5,
        targets: 3,
        ..pattern()
    };
    let ranges = [(500, 600), (700, 700), (1_000_001, 1_000_005)];
    let ranges = ranges
        .into_iter()
        .chain([(1_000_011, 1_000_015), (1_000_021, 1_000_025)]);
    controls.starts.fill(0);
    controls.ends.fill(0);
    for (at, range) in ranges.enumerate() {
        (controls.starts[at], controls.ends[at]) = range;
    }
    (controls.phases[2], controls.positions[2]) = (3, 13);
    controls
}

fn metadata() -> HostMetadata {
    HostMetadata {
        id: number(77),
        msg: place(2),
        logdata: place(3),
        rev: place(4),
        ver: place(5),
        severity: number(61),
        maturity: number(62),
        accuracy: number(63),
    }
}

/// A rule set as it is lent, with the numbers that a call is given.
fn lent<'a>(rules: &'a RuleSet, phase: u64, outcomes: &'a [u8]) -> Lent<'a> {
    let records = rules.records();
    Lent {
        call: CallSettings {
            phase,
            mode: 0,
            default_status: 403,
        },
        rules: raw::words(records.rules),
        actions: raw::words(records.actions),
        markers: records.markers,
        text: records.text,
        outcomes,
    }
}

/// Lends everything with a pattern in it, and compares everything after the call.
fn check(stops: Act, wanted: &HostTransaction) {
    let rules = rules(stops);
    let lent = lent(&rules, 3, &[2, 2]);
    let mut transaction = HostTransaction {
        controls: HostControls {
            ranges: 3,
            targets: 2,
            ..pattern()
        },
        ids: 4,
        entries: 2,
        ..HostTransaction::default()
    };
    let (mut ids, mut entries, mut journal) = ([9; 7], [8; 17], [7; 5]);
    let mut lists = Lists {
        ids: &mut ids,
        entries: &mut entries,
        journal: &mut journal,
    };
    let answer = raw::run_phase(&mut transaction, &lent, &mut lists);
    let visited = HostAnswer {
        visits: 2,
        report: Report {
            matched: 2,
            ..Report::default()
        },
        ..HostAnswer::default()
    };
    assert_eq!(answer, visited);
    assert_eq!(transaction, *wanted);
    assert_eq!(ids, [9, 9, 9, 9, 20, 9, 9]);
    assert_eq!(entries[8..16], [1, 20, 3, 0, 1, 21, 3, 1]);
    assert!(entries[..8].iter().chain(&entries[16..]).all(|&n| n == 8));
    assert_eq!(journal, [0, 1, 1, 1, 7]);
}

#[test]
fn every_number_of_a_transaction_is_written() {
    let none = HostPlace::default();
    check(Act::Redirect(b"u"), &expected(302, place(1), 0));
    check(Act::Drop, &expected(444, none, 1));
    check(Act::Block, &expected(403, none, 0));
}

/// The flags that a call reads: with each of them it has nothing to do.
#[test]
fn the_flags_of_a_transaction_are_read() {
    let lent = Lent {
        call: CallSettings {
            phase: 1,
            ..CallSettings::default()
        },
        rules: &[0; 5],
        outcomes: &[1],
        ..Lent::default()
    };
    let stopped = HostIntervention {
        present: 1,
        ..HostIntervention::default()
    };
    let idle = |change: &dyn Fn(&mut HostTransaction)| {
        let mut transaction = HostTransaction::default();
        change(&mut transaction);
        let before = transaction;
        let (mut ids, mut entries, mut journal) = ([0; 1], [0; 4], [0; 2]);
        let mut lists = Lists {
            ids: &mut ids,
            entries: &mut entries,
            journal: &mut journal,
        };
        let answer = raw::run_phase(&mut transaction, &lent, &mut lists);
        assert_eq!((answer.answer, transaction), (0, before));
        answer.visits
    };
    assert_eq!(idle(&|_| ()), 1);
    assert_eq!(idle(&|t| t.allowed = 1), 0);
    assert_eq!(idle(&|t| t.intervention = stopped), 0);
    assert_eq!(idle(&|t| t.controls.mode = 3), 0);
}

/// The rules of the phase below: six that miss, two that are removed, three that match, of which the first has a directive
/// that is passed over, and one in error. So all numbers of its answer differ.
fn twelve_rules() -> RuleSet {
    let mut rules = RuleSet::builder();
    for at in 0..12 {
        let removed = (6..8).contains(&at).then_some(5);
        let ctl = [Act::Ctl(b"foo", b"1")];
        rules.rule(removed, false, if at == 8 { &ctl } else { &[] });
    }
    rules.build().expect("within the limits")
}

#[test]
fn every_number_of_an_answer() {
    let mut transaction = HostTransaction::default();
    transaction.controls.ranges = 1;
    (transaction.controls.starts[0], transaction.controls.ends[0]) = (5, 5);
    let rules = twelve_rules();
    let lent = lent(&rules, 1, &[0, 0, 0, 0, 0, 0, 3, 3, 1, 1, 1, 3]);
    let (mut ids, mut entries, mut journal) = ([0; 12], [0; 48], [0; 24]);
    let mut lists = Lists {
        ids: &mut ids,
        entries: &mut entries,
        journal: &mut journal,
    };
    let answer = raw::run_phase(&mut transaction, &lent, &mut lists);
    let expected = HostAnswer {
        answer: 10,
        error: 11,
        visits: 12,
        report: Report {
            missed: 6,
            matched: 3,
            removed: 2,
            errors: 1,
            unsupported: UnsupportedAt {
                index: 8,
                reason: 7,
            },
        },
    };
    assert_eq!(answer, expected);
    let verdicts = [0, 0, 0, 0, 0, 0, 2, 2, 1, 1, 1, 3];
    let visits = verdicts.into_iter().zip(0..);
    let visits = visits.flat_map(|(verdict, index)| [index, verdict]);
    assert_eq!(journal.to_vec(), visits.collect::<Vec<u64>>());
}

#[test]
fn every_number_of_a_directive_and_of_a_marker() {
    let read = raw::read_directive(b"ruleRemoveTargetById", b"12;ARGS", &mut [], &mut []);
    assert_eq!((read.answer, read.form, read.value), (0, 3, 2));
    // An unsupported directive has its reason as the value; where nothing is read both are 0.
    let read = raw::read_directive(b"auditEngine", b"On", &mut [], &mut []);
    assert_eq!((read.answer, read.form, read.value), (0, 0, 6));
    let read = raw::read_directive(b"ruleRemoveById", b"12", &mut [], &mut []);
    assert_eq!((read.answer, read.form, read.value), (7, 0, 0));
    let read = raw::read_directive(b"foo", b"\x80", &mut [], &mut []);
    assert_eq!((read.answer, read.form, read.value), (6, 0, 0));
    let read = raw::read_directive(&[b' '; 65_537], b"", &mut [], &mut []);
    assert_eq!((read.answer, read.form, read.value), (2, 0, 0));

    let name = Part { start: 1, len: 2 };
    let marker = Marker { name, position: 3 };
    let found = raw::marker_position(&[marker], 4, b"xyz", b"yz");
    assert_eq!((found.answer, found.present, found.position), (0, 1, 3));
    let refused = raw::marker_position(&[marker], 2, b"xyz", b"yz");
    assert_eq!(refused.answer, 5);
}

#[test]
fn every_refusal_of_a_question_and_of_an_addition() {
    let beyond = HostControls {
        targets: MOST_TARGETS as u64 + 1,
        ..pattern()
    };
    let asked = raw::target_count(beyond);
    assert_eq!((asked.answer, asked.value), (3, 0));
    let asked = raw::target_at(beyond, 0);
    assert_eq!((asked.answer, asked.target), (3, HostPlace::default()));
    let mut touching = HostControls {
        ranges: MOST_RANGES as u64,
        ..pattern()
    };
    touching.starts[255] = touching.ends[254] + 1;
    assert_eq!(raw::target_count(touching).answer, 3);
    let refused = raw::remove_range(touching, 7, 7);
    assert_eq!((refused.answer, refused.controls), (3, touching));
    let refused = raw::remove_target(touching, 7, 7);
    assert_eq!((refused.answer, refused.controls), (3, touching));
    let refused = raw::remove_range(pattern(), 8, 7);
    assert_eq!((refused.answer, refused.controls), (5, pattern()));
}

#[test]
fn lists_of_records_are_their_numbers() {
    let rule = Rule {
        present: 1,
        id: 2,
        link: 3,
        first: 4,
        count: 5,
    };
    let action = Action {
        kind: 1,
        number: 2,
        text: Part { start: 3, len: 4 },
        value: Part { start: 5, len: 6 },
    };
    assert_eq!(raw::words(&[rule, rule]), [1, 2, 3, 4, 5, 1, 2, 3, 4, 5]);
    assert_eq!(raw::words(&[action]), [1, 2, 3, 4, 5, 6]);
    let mut entries = [DataEntry::default(); 2];
    raw::words_mut(&mut entries)[4..].copy_from_slice(&[1, 2, 3, 4]);
    let entry = DataEntry {
        present: 1,
        id: 2,
        phase: 3,
        index: 4,
    };
    assert_eq!(entries, [DataEntry::default(), entry]);
    let mut journal = [JournalEntry::default(); 1];
    raw::words_mut(&mut journal).copy_from_slice(&[5, 6]);
    let visit = JournalEntry {
        index: 5,
        verdict: 6,
    };
    assert_eq!(journal, [visit]);
}
