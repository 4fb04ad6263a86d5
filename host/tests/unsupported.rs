//! The first unsupported directive that a phase passes over, by name and as numbers: each row below goes through the crate's
//! types and through the raw call, and both must tell the same.

use tivembo::raw::{self, Lent, Lists};
use tivembo::UnsupportedReason::{self, *};
use tivembo::{
    Act, CallSettings, HostIntervention, HostTransaction, Mode, Outcome, Refusal, Report, RuleSet,
    Transaction, UnsupportedAt, UnsupportedDirective,
};

const MATCHED: Outcome = Outcome::MatchedVariable;
const FOO: Act = Act::Ctl(b"foo", b"1");
const AUDIT: Act = Act::Ctl(b"auditEngine", b"On");

/// A rule of a row: its id, whether it is a link, its outcome and its actions.
type Given<'a> = (u64, bool, Outcome, &'a [Act<'a>]);

fn rule_set(rules: &[Given]) -> RuleSet {
    let mut builder = RuleSet::builder();
    for &(id, link, _, actions) in rules {
        builder.rule(Some(id), link, actions);
    }
    builder.build().expect("within the limits")
}

fn outcomes(rules: &[Given]) -> Vec<Outcome> {
    rules.iter().map(|rule| rule.2).collect()
}

/// What the raw call answers of phase 2, with a journal of so many entries.
fn raw_call(record: HostTransaction, rules: &[Given], room: usize) -> tivembo::HostAnswer {
    let (set, mut record) = (rule_set(rules), record);
    let (records, outcomes) = (set.records(), outcomes(rules));
    let lent = Lent {
        call: CallSettings {
            phase: 2,
            ..CallSettings::default()
        },
        rules: raw::words(records.rules),
        actions: raw::words(records.actions),
        text: records.text,
        outcomes: raw::outcome_bytes(&outcomes),
        ..Lent::default()
    };
    let (mut ids, mut entries) = (vec![0; rules.len()], vec![0; 4 * rules.len()]);
    let mut lists = Lists {
        ids: &mut ids,
        entries: &mut entries,
        journal: &mut vec![0; 2 * room],
    };
    raw::run_phase(&mut record, &lent, &mut lists)
}

/// What a phase on this transaction tells, by both ways.
#[track_caller]
fn told(record: HostTransaction, rules: &[Given]) -> Option<(usize, UnsupportedReason)> {
    let mut transaction = Transaction::from_record(record, Vec::new(), Vec::new());
    let (set, outcomes) = (rule_set(rules), outcomes(rules));
    let phase = transaction.run_phase(&set, 2, Mode::On, 403, &outcomes);
    let phase = phase.expect("no reason to refuse it");
    let found = phase.unsupported();
    let number = found.map_or(UnsupportedAt::default(), |found| UnsupportedAt {
        index: found.rule as u64,
        reason: found.reason.number(),
    });
    assert_eq!(phase.report().unsupported, number);
    let answer = raw_call(record, rules, rules.len());
    assert_eq!(answer.report, phase.report());
    found.map(|UnsupportedDirective { rule, reason }| (rule, reason))
}

/// What a phase on a transaction that holds nothing tells.
#[track_caller]
fn tells(rules: &[Given], expected: Option<(usize, UnsupportedReason)>) {
    assert_eq!(told(HostTransaction::default(), rules), expected);
}

#[test]
fn each_reason() {
    let directives: [(UnsupportedReason, &[u8], &[u8]); 7] = [
        (ModeValue, b"ruleEngine", b"Of"),
        (IdList, b"ruleRemoveById", b"1,5-4"),
        (TargetForm, b"ruleRemoveTargetById", b"942100"),
        (BodyAccessValue, b"requestBodyAccess", b"yes"),
        (Processor, b"requestBodyProcessor", b"YAML"),
        (Audit, b"auditLogParts", b"+E"),
        (Unrecognised, b"", b""),
    ];
    for (number, (reason, name, value)) in (1..).zip(directives) {
        assert_eq!(reason.number(), number);
        let actions = [Act::Deny, Act::Ctl(name, value)];
        tells(&[(10, false, MATCHED, &actions)], Some((0, reason)));
        let set = rule_set(&[(10, false, MATCHED, &actions)]);
        let passed: Vec<_> = set.records().unsupported_in(0).collect();
        assert_eq!((passed[0].name, passed[0].value), (name, value));
        assert_eq!((passed[0].reason, passed.len()), (reason, 1));
    }
}

/// A supported directive is none of them, and neither is a text that only an action of another kind has.
#[test]
fn nothing_is_passed_over() {
    let supported = Act::Ctl(b"ruleRemoveById", b"7");
    let rules = [
        (10, false, MATCHED, &[supported, Act::Msg(b"foo")][..]),
        (11, false, MATCHED, &[]),
    ];
    tells(&rules, None);
    tells(&[], None);
    assert_eq!(rule_set(&rules).records().unsupported_in(0).count(), 0);
    assert_eq!(rule_set(&rules).records().unsupported_in(2).count(), 0);
}

/// The index is the member's, not that of the rule that starts or closes its unit.
#[test]
fn the_index_is_of_the_rule_that_has_it() {
    let link = |id, actions| (id, true, MATCHED, actions);
    let rules = [link(1, &[][..]), (2, false, MATCHED, &[FOO])];
    tells(&rules, Some((1, Unrecognised)));
    let rules = [link(1, &[FOO][..]), (2, false, MATCHED, &[])];
    tells(&rules, Some((0, Unrecognised)));
    let between = [link(1, &[][..]), link(2, &[FOO]), (3, false, MATCHED, &[])];
    tells(&between, Some((1, Unrecognised)));
}

/// First is by units, then by members, then by actions.
#[test]
fn the_first_of_several() {
    tells(&[(1, false, MATCHED, &[AUDIT, FOO])], Some((0, Audit)));
    let supported = Act::Ctl(b"ruleEngine", b"On");
    let actions = [supported, FOO, AUDIT];
    tells(&[(1, false, MATCHED, &actions)], Some((0, Unrecognised)));
    let members = [
        (1, true, MATCHED, &[AUDIT][..]),
        (2, false, MATCHED, &[FOO]),
    ];
    tells(&members, Some((0, Audit)));
    let units = [
        (1, false, MATCHED, &[FOO][..]),
        (2, false, MATCHED, &[AUDIT]),
    ];
    tells(&units, Some((0, Unrecognised)));
    // The unit of the third rule closes first, since the first two never close theirs.
    let later = [
        (1, true, MATCHED, &[AUDIT][..]),
        (2, false, Outcome::Missed, &[AUDIT]),
        (3, false, MATCHED, &[FOO]),
    ];
    tells(&later, Some((2, Unrecognised)));
}

/// Rules that miss, are removed, are passed or end in an error, and chains that do not close, tell nothing.
#[test]
fn what_does_not_count() {
    tells(&[(1, false, Outcome::Missed, &[FOO])], None);
    tells(&[(1, false, Outcome::Error, &[FOO])], None);
    let missed = [
        (1, true, MATCHED, &[FOO][..]),
        (2, false, Outcome::Missed, &[]),
    ];
    tells(&missed, None);
    let error = [
        (1, true, MATCHED, &[FOO][..]),
        (2, false, Outcome::Error, &[]),
    ];
    tells(&error, None);
    tells(&[(1, true, MATCHED, &[FOO])], None);
    let skipped = [
        (1, false, MATCHED, &[Act::Skip(1)][..]),
        (2, false, MATCHED, &[FOO]),
    ];
    tells(&skipped, None);
    let behind = [
        (1, false, MATCHED, &[Act::Ctl(b"ruleEngine", b"Off")][..]),
        (2, false, MATCHED, &[FOO]),
    ];
    tells(&behind, None);
}

/// A transaction that holds one range.
fn with_range(id: u64) -> HostTransaction {
    let mut record = HostTransaction::default();
    record.controls.ranges = 1;
    (record.controls.starts[0], record.controls.ends[0]) = (id, id);
    record
}

/// A removed closing rule leaves its chain open, and a removed rule's directives are not looked at.
#[test]
fn removed_rules() {
    let open = [(1, true, MATCHED, &[FOO][..]), (2, false, MATCHED, &[])];
    assert_eq!(told(with_range(2), &open), None);
    assert_eq!(told(with_range(1), &open), None);
    let alone = [
        (1, false, MATCHED, &[FOO][..]),
        (2, false, MATCHED, &[AUDIT]),
    ];
    assert_eq!(told(with_range(1), &alone), Some((1, Audit)));
    // The chain stays open over the removed rule, and the third rule closes it.
    let closed = [open[0], open[1], (3, false, MATCHED, &[])];
    assert_eq!(told(with_range(2), &closed), Some((0, Unrecognised)));
}

/// A unit that ends the phase counts; what was never visited behind it does not.
#[test]
fn a_unit_that_stops_or_allows() {
    for ends in [Act::Deny, Act::Drop, Act::Allow] {
        let rules = [
            (10, false, MATCHED, &[AUDIT, ends][..]),
            (11, false, MATCHED, &[FOO]),
        ];
        tells(&rules, Some((0, Audit)));
        let behind = [(10, false, MATCHED, &[ends][..]), rules[1]];
        tells(&behind, None);
    }
    let mode = Act::Ctl(b"ruleEngine", b"Off");
    tells(
        &[(10, false, MATCHED, &[mode, FOO])],
        Some((0, Unrecognised)),
    );
}

/// A unit that closed before a rule in error stands, and so does what it passed over.
#[test]
fn a_rule_error_behind() {
    let rules = [
        (10, false, MATCHED, &[FOO][..]),
        (11, false, Outcome::Error, &[]),
    ];
    tells(&rules, Some((0, Unrecognised)));
}

#[test]
fn nothing_to_do() {
    let rules = [(10, false, MATCHED, &[FOO][..])];
    let idle = |change: fn(&mut HostTransaction)| {
        let mut record = HostTransaction::default();
        change(&mut record);
        assert_eq!(told(record, &rules), None);
    };
    idle(|record| record.allowed = 1);
    idle(|record| record.controls.mode = 3);
    idle(|record| {
        record.intervention = HostIntervention {
            present: 1,
            ..HostIntervention::default()
        }
    });
}

/// A refused call tells nothing, whatever its rules would have told.
#[test]
fn refused_calls() {
    let rules = [(10, false, MATCHED, &[FOO][..])];
    let answer = raw_call(HostTransaction::default(), &rules, 0);
    assert_eq!((answer.answer, answer.error, answer.visits), (7, 0, 0));
    assert_eq!(answer.report, Report::default());

    let set = rule_set(&rules);
    let mut transaction = Transaction::with_room(1, 1, 0);
    let ran = transaction.run_phase(&set, 2, Mode::On, 403, &[MATCHED]);
    assert_eq!(ran.map(|phase| phase.unsupported()), Err(Refusal::NoRoom));
    let ran = transaction.run_phase(&set, 6, Mode::On, 403, &[MATCHED]);
    let refusal = ran.map(|phase| phase.unsupported());
    assert_eq!(refusal, Err(Refusal::UnknownPhaseOrMode));
    // 9 is found last, when every directive has been read.
    let mut record = HostTransaction::default();
    record.controls.targets = 64;
    let actions = [FOO, Act::Ctl(b"ruleRemoveTargetById", b"1;ARGS")];
    let answer = raw_call(record, &[(10, false, MATCHED, &actions)], 1);
    assert_eq!((answer.answer, answer.report), (9, Report::default()));
}

/// Each call tells of its own units alone.
#[test]
fn later_calls() {
    let (first, second) = (
        rule_set(&[(1, false, MATCHED, &[FOO])]),
        rule_set(&[(2, false, MATCHED, &[])]),
    );
    let mut transaction = Transaction::new();
    let mut run = |rules: &RuleSet, phase| {
        let ran = transaction.run_phase(rules, phase, Mode::On, 403, &[MATCHED]);
        ran.unwrap().unsupported().map(|found| found.reason)
    };
    assert_eq!(run(&first, 1), Some(Unrecognised));
    assert_eq!(run(&second, 2), None);
    assert_eq!(run(&first, 3), Some(Unrecognised));
}

/// A sentence for each reason, which names the directives that have it; no two are alike.
#[test]
fn sentences() {
    let names: [&[&str]; 7] = [
        &["ruleEngine"],
        &["ruleRemoveById"],
        &["ruleRemoveTargetById"],
        &["requestBodyAccess"],
        &["requestBodyProcessor"],
        &["auditEngine", "auditLogParts"],
        &["not known"],
    ];
    let mut said = std::collections::HashSet::new();
    for (number, names) in (1..).zip(names) {
        let reason = UnsupportedReason::from_number(number).expect("1 to 7");
        let sentence = reason.to_string();
        assert!(names.iter().all(|name| sentence.contains(name)));
        assert!(said.insert(sentence) && said.insert(reason.name().to_string()));
    }
}
