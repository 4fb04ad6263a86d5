//! Removed ranges as a transaction holds them, merged: additions to them, calls that add some, and records that have them in
//! another form.

use tivembo::raw::{self, Lent, Lists};
use tivembo::{
    Act, CallSettings, HostControls, HostTransaction, Mode, Outcome, Place, RangeFault, Refusal,
    RuleSet, Transaction, Verdict, MOST_RANGES,
};

const MAX: u64 = u64::MAX;

/// What stands in array places that are not in use.
const FOUND: u64 = 77;

/// Controls that hold these ranges as they are, with a number in every place after them.
fn holding(ranges: &[(u64, u64)]) -> HostControls {
    let mut controls = HostControls {
        ranges: ranges.len() as u64,
        starts: [FOUND; MOST_RANGES],
        ends: [FOUND; MOST_RANGES],
        ..HostControls::default()
    };
    for (at, range) in ranges.iter().enumerate() {
        (controls.starts[at], controls.ends[at]) = *range;
    }
    controls
}

/// The same with 0 in every place after the ranges, as they are held where one was added.
fn cleared(ranges: &[(u64, u64)]) -> HostControls {
    let mut controls = holding(ranges);
    controls.starts[ranges.len()..].fill(0);
    controls.ends[ranges.len()..].fill(0);
    controls
}

fn transaction(ranges: &[(u64, u64)]) -> Transaction {
    let record = HostTransaction {
        controls: holding(ranges),
        ..HostTransaction::default()
    };
    Transaction::from_record(record, Vec::new(), Vec::new())
}

/// 256 ranges of one id, every second from 1 on.
fn full() -> Vec<(u64, u64)> {
    (0..MOST_RANGES as u64)
        .map(|at| (2 * at + 1, 2 * at + 1))
        .collect()
}

/// Rules that match, each with one directive, and the controls after a call of them.
fn after(ranges: &[(u64, u64)], removals: &[&str]) -> Result<HostControls, Refusal> {
    let mut rules = RuleSet::builder();
    for ids in removals {
        rules.rule(None, false, &[Act::Ctl(b"ruleRemoveById", ids.as_bytes())]);
    }
    let rules = rules.build_as_given();
    let outcomes = vec![Outcome::Matched; removals.len()];
    let mut transaction = transaction(ranges);
    let before = *transaction.record();
    let ran = transaction.run_phase(&rules, 2, Mode::On, 403, &outcomes);
    let refused = ran.map(|_| ()).err();
    let record = *transaction.record();
    if let Some(refusal) = refused {
        assert_eq!(record, before, "a refused call changes nothing");
        return Err(refusal);
    }
    Ok(record.controls)
}

/// A range held, one added, and what is then held.
type Added = (&'static [(u64, u64)], (u64, u64), &'static [(u64, u64)]);

const ADDED: [Added; 20] = [
    (&[], (5, 7), &[(5, 7)]),
    (&[(5, 7)], (8, 9), &[(5, 9)]),
    (&[(8, 9)], (5, 7), &[(5, 9)]),
    (&[(5, 7)], (9, 9), &[(5, 7), (9, 9)]),
    (&[(5, 7)], (3, 3), &[(3, 3), (5, 7)]),
    (&[(5, 7)], (6, 6), &[(5, 7)]),
    (&[(5, 7)], (5, 7), &[(5, 7)]),
    (&[(5, 7)], (6, 9), &[(5, 9)]),
    (&[(5, 7)], (1, 5), &[(1, 7)]),
    (&[(5, 7)], (1, 9), &[(1, 9)]),
    (&[(1, 1), (3, 3)], (2, 2), &[(1, 3)]),
    (&[(1, 1), (3, 3), (5, 5), (9, 9)], (2, 4), &[(1, 5), (9, 9)]),
    (&[(1, 1), (3, 3), (5, 5)], (0, MAX), &[(0, MAX)]),
    (&[(1, 2), (9, 9)], (5, 6), &[(1, 2), (5, 6), (9, 9)]),
    (&[(1, 1)], (0, 0), &[(0, 1)]),
    (&[(0, 0)], (2, 2), &[(0, 0), (2, 2)]),
    (&[(MAX, MAX)], (0, 0), &[(0, 0), (MAX, MAX)]),
    (&[(MAX, MAX)], (MAX - 1, MAX - 1), &[(MAX - 1, MAX)]),
    (&[(4, MAX - 1)], (MAX, MAX), &[(4, MAX)]),
    (&[(4, MAX - 2)], (MAX, MAX), &[(4, MAX - 2), (MAX, MAX)]),
];

/// Singly and by a directive the same, and the places after the ranges are 0, also where the range was held already.
#[test]
fn a_range_is_merged_in() {
    for (held, (start, end), expected) in ADDED {
        let expected = cleared(expected);
        let changed = raw::remove_range(holding(held), start, end);
        let found = (changed.answer, changed.controls);
        assert_eq!(found, (0, expected), "{held:?} and {start}-{end}");
        let controls = after(held, &[&format!("{start}-{end}")]);
        assert_eq!(controls, Ok(expected), "{held:?} and {start}-{end}");
    }
}

#[test]
fn several_are_merged_in_their_order() {
    let held = [(10, 11), (30, 31)];
    let all = cleared(&[(1, 1), (10, 12), (20, 31), (50, 50)]);
    assert_eq!(after(&held, &["50,20-22,1,12,23-29"]), Ok(all));
    assert_eq!(after(&held, &["23-29", "12,1", "20-22,50"]), Ok(all));
    // What is written on the way is cleared too: 1-1, 3-3 and 5-5 come to one.
    assert_eq!(after(&[], &["1,3,5,4,2"]), Ok(cleared(&[(1, 5)])));
    assert_eq!(after(&[], &["7,7", "7"]), Ok(cleared(&[(7, 7)])));
}

/// As found after a call that adds no range, after a target, and after a refusal; 0 after one that adds only what is held already.
#[test]
fn other_places_stay_as_found() {
    let held = [(1, 2), (4, 5)];
    assert_eq!(after(&held, &[]), Ok(holding(&held)));
    assert_eq!(after(&held, &["", "5-4"]), Ok(holding(&held)));
    assert_eq!(after(&held, &["4-5,1", "5", "1-2,4"]), Ok(cleared(&held)));
    assert_eq!(
        after(&held, &["4-5,1", "7"]),
        Ok(cleared(&[(1, 2), (4, 5), (7, 7)]))
    );
    let mut with_target = holding(&held);
    (with_target.targets, with_target.phases[0]) = (1, 3);
    with_target.positions[0] = 8;
    let added = raw::remove_target(holding(&held), 3, 8);
    assert_eq!((added.answer, added.controls), (0, with_target));
    let refused = raw::remove_range(holding(&held), 2, 1);
    assert_eq!((refused.answer, refused.controls), (5, holding(&held)));
}

/// A chain that does not close adds nothing, and clears nothing.
#[test]
fn an_open_chain_leaves_the_places() {
    let mut rules = RuleSet::builder();
    rules.rule(None, true, &[Act::Ctl(b"ruleRemoveById", b"7")]);
    rules.rule(None, false, &[]);
    let rules = rules.build().unwrap();
    let mut transaction = transaction(&[(5, 6)]);
    let outcomes = [Outcome::Matched, Outcome::Missed];
    let ran = transaction.run_phase(&rules, 2, Mode::On, 403, &outcomes);
    assert_eq!(ran.unwrap().visits().count(), 2);
    assert_eq!(transaction.record().controls, holding(&[(5, 6)]));
}

/// Which records are refused with 3, and why.
fn faults() -> [(Vec<(u64, u64)>, RangeFault); 9] {
    let late = [full(), vec![(2_000, 1_999)]].concat().split_off(1);
    [
        (vec![(1, 2), (3, 4)], RangeFault::Touching((1, 2), (3, 4))),
        (
            vec![(1, 3), (3, 4)],
            RangeFault::Overlapping((1, 3), (3, 4)),
        ),
        (
            vec![(7, 7), (7, 7)],
            RangeFault::Overlapping((7, 7), (7, 7)),
        ),
        (vec![(4, 5), (1, 2)], RangeFault::Unsorted((4, 5), (1, 2))),
        (vec![(5, 4)], RangeFault::Backwards((5, 4))),
        (vec![(1, 0)], RangeFault::Backwards((1, 0))),
        (
            vec![(9, MAX), (0, 0)],
            RangeFault::Unsorted((9, MAX), (0, 0)),
        ),
        (
            vec![(0, MAX), (1, 1)],
            RangeFault::Overlapping((0, MAX), (1, 1)),
        ),
        (late, RangeFault::Backwards((2_000, 1_999))),
    ]
}

#[test]
fn other_forms_are_refused() {
    let miscounted = Refusal::Miscounted;
    for (held, fault) in faults() {
        let mut transaction = transaction(&held);
        let before = *transaction.record();
        let controls = transaction.controls();
        assert_eq!(controls.range_fault(), Some(fault));
        assert_eq!(controls.engine_mode(Mode::On), Err(miscounted));
        assert_eq!(controls.is_rule_removed(Some(1)), Err(miscounted));
        assert_eq!(controls.is_rule_removed(None), Err(miscounted));
        assert_eq!(controls.removed_targets(), Err(miscounted));
        assert_eq!(controls.target(0), Err(miscounted));
        assert_eq!(controls.request_body_access(), Err(miscounted));
        assert_eq!(controls.request_body_processor(), Err(miscounted));
        // 3 comes before 5.
        assert_eq!(transaction.remove_range(2, 1), Err(miscounted));
        assert_eq!(transaction.remove_range(6, 6), Err(miscounted));
        let place = Place {
            phase: 1,
            position: 0,
        };
        assert_eq!(transaction.remove_target(place), Err(miscounted));
        assert_eq!(*transaction.record(), before);
        assert_eq!(after(&held, &["1"]), Err(miscounted));
        assert_eq!(after(&held, &[]), Err(miscounted));
    }
}

#[test]
fn this_form_is_not() {
    let good: [&[(u64, u64)]; 6] = [
        &[],
        &[(1, 2), (4, 5)],
        &[(0, 0), (2, MAX)],
        &[(0, MAX)],
        &[(MAX, MAX)],
        &full(),
    ];
    for held in good {
        assert_eq!(transaction(held).controls().range_fault(), None);
        let asked = raw::is_rule_removed(holding(held), Some(3).into());
        assert_eq!(asked.answer, 0, "{held:?}");
        assert_eq!(after(held, &[]), Ok(holding(held)));
    }
}

#[test]
fn faults_are_told() {
    let sentences = faults().map(|(_, fault)| fault.to_string());
    let expected = [
        "ranges 1-2 and 3-4 touch: merged they are 1-4",
        "ranges 1-3 and 3-4 overlap: merged they are 1-4",
        "ranges 7-7 and 7-7 overlap: merged they are 7-7",
        "range 1-2 stands after 4-5 and starts below it",
        "range 5-4 starts above its end",
    ];
    assert_eq!(sentences[..5], expected);
}

/// 8 is counted before merging: a full list takes no range, also where it would change nothing.
#[test]
fn a_full_list_takes_none() {
    let held = full();
    for (start, end, answer) in [(1, 1, 8), (2, 2, 8), (0, MAX, 8), (2, 1, 5)] {
        let refused = raw::remove_range(holding(&held), start, end);
        let found = (refused.answer, refused.controls);
        assert_eq!(found, (answer, holding(&held)), "{start}-{end}");
    }
    let too_many = Err(Refusal::TooManyRanges);
    assert_eq!(after(&held, &["1"]), too_many);
    assert_eq!(after(&held, &["0-1000"]), too_many);
    assert_eq!(after(&held, &["5-4"]), Ok(holding(&held)));
}

/// The ranges of a call count as they are written.
#[test]
fn ranges_count_as_written() {
    let ones = |count: usize| vec!["1"; count].join(",");
    let too_many = Err(Refusal::TooManyRanges);
    assert_eq!(after(&[(0, MAX)], &[&ones(256)]), too_many);
    assert_eq!(after(&[(0, MAX)], &[&ones(128), &ones(128)]), too_many);
    let all = Ok(cleared(&[(0, MAX)]));
    assert_eq!(after(&[(0, MAX)], &[&ones(255)]), all);
    assert_eq!(after(&[], &[&ones(256)]), Ok(cleared(&[(1, 1)])));
    let held = full().split_off(1);
    assert_eq!(after(&held, &["7", "7"]), too_many);
    assert_eq!(after(&held, &["7"]), Ok(cleared(&held)));
    assert_eq!(after(&held, &["1"]), Ok(holding(&full())));
}

/// What was merged makes room: of 255 ranges one more makes 253, so that there is a place for three.
#[test]
fn merging_makes_room() {
    let mut transaction = transaction(&full()[..255]);
    transaction.remove_range(2, 4).unwrap();
    assert_eq!(transaction.record().controls.ranges, 253);
    for id in [1_000, 1_010, 1_020] {
        transaction.remove_range(id, id).unwrap();
    }
    assert_eq!(transaction.record().controls.ranges, 256);
    let more = transaction.remove_range(1_030, 1_030);
    assert_eq!(more, Err(Refusal::TooManyRanges));
}

/// Merged ranges stay from phase to phase, and remove the ids of the plain list of all that were added.
#[test]
fn visits_are_those_of_the_plain_list() {
    let mut rules = RuleSet::builder();
    rules.rule(Some(5), false, &[Act::Ctl(b"ruleRemoveById", b"8-9")]);
    rules.rule(Some(8), false, &[]).rule(Some(4), false, &[]);
    let rules = rules.build().unwrap();
    let mut transaction = transaction(&[(6, 7)]);
    let matched = [Outcome::MatchedVariable; 3];
    let phase = transaction.run_phase(&rules, 2, Mode::On, 403, &matched);
    let verdicts = [Verdict::Matched, Verdict::Removed, Verdict::Matched];
    let visits = (0..).zip(verdicts).collect::<Vec<_>>();
    assert_eq!(phase.unwrap().visits().collect::<Vec<_>>(), visits);
    assert_eq!(transaction.record().controls, cleared(&[(6, 9)]));
    for (id, removed) in [(5, false), (6, true), (7, true), (9, true), (10, false)] {
        assert_eq!(
            transaction.controls().is_rule_removed(Some(id)),
            Ok(removed)
        );
    }
    let mut later = RuleSet::builder();
    later.rule(Some(9), false, &[Act::Ctl(b"ruleRemoveById", b"1")]);
    later.rule(Some(1), false, &[Act::Ctl(b"ruleRemoveById", b"3-5")]);
    let later = later.build().unwrap();
    let phase = transaction.run_phase(&later, 3, Mode::On, 403, &matched[..2]);
    assert_eq!(phase.unwrap().ids(), [1]);
    assert_eq!(transaction.record().controls, cleared(&[(3, 9)]));
}

/// Refusals 1 and 2 come before 3, and 4 and those after it do not.
#[test]
fn the_place_of_3_among_the_refusals() {
    let answer = |phase, rules: &[u64], outcomes: &[u8]| {
        let lent = Lent {
            call: CallSettings {
                phase,
                ..CallSettings::default()
            },
            rules,
            outcomes,
            text: &[0x80],
            ..Lent::default()
        };
        let mut record = HostTransaction {
            controls: holding(&[(1, 2), (3, 4)]),
            ..HostTransaction::default()
        };
        raw::run_phase(&mut record, &lent, &mut Lists::default()).answer
    };
    assert_eq!(answer(0, &[], &[]), 1);
    assert_eq!(answer(1, &[0; 513 * 5], &[]), 2);
    assert_eq!(answer(1, &[9; 5], &[9, 9]), 3);
    assert_eq!(answer(1, &[9; 5], &[9]), 3);
}
