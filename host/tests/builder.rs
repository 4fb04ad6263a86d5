//! The limits of a rule set: what build() says, and that a call with such a rule set is refused with the same number.

use tivembo::{
    Act, Action, Builder, Limit, Marker, Mode, Outcome, Part, Rule, RuleSet, Transaction, Where,
};

/// Builds, expects this to be broken, and makes the call all the same.
#[track_caller]
fn breaks(rules: Builder, limit: Limit, sentence: &str) {
    let broken = rules.clone().build().unwrap_err();
    assert_eq!(
        (broken.limit, broken.to_string().as_str()),
        (limit, sentence)
    );
    refused(&rules.build_as_given(), limit);
}

#[track_caller]
fn refused(rules: &RuleSet, limit: Limit) {
    let outcomes = vec![Outcome::Missed; rules.records().rules.len()];
    let mut transaction = Transaction::new();
    let ran = transaction.run_phase(rules, 1, Mode::On, 403, &outcomes);
    assert_eq!(ran.unwrap_err().number(), limit.number());
}

#[test]
fn texts_are_held_once() {
    let mut rules = RuleSet::builder();
    for value in [&b"1"[..], b"2", b"1"] {
        rules.rule(None, false, &[Act::Ctl(b"ruleRemoveById", value)]);
    }
    rules.marker(b"2");
    let rules = rules.build().unwrap();
    assert_eq!(rules.records().text, b"ruleRemoveById12");
    let first = rules.records().rules[2];
    let acts: Vec<Act> = rules.records().actions_of(&first).collect();
    assert_eq!(acts, [Act::Ctl(b"ruleRemoveById", b"1")]);
}

#[test]
fn sizes() {
    let mut rules = RuleSet::builder();
    for id in 0..513 {
        rules.rule(Some(id), false, &[]);
    }
    breaks(
        rules,
        Limit::Rules,
        "rule 512: there are more than 512 rules",
    );
    let mut rules = RuleSet::builder();
    rules.rule(None, false, &[Act::Deny; 96]);
    rules.rule(None, false, &[Act::Pass; 4_001]);
    let sentence = "action 4000 (pass) of rule 1: there are more than 4096 actions";
    breaks(rules, Limit::Actions, sentence);
    let mut rules = RuleSet::builder();
    for _ in 0..257 {
        rules.marker(b"");
    }
    breaks(
        rules,
        Limit::Markers,
        "marker 256: there are more than 256 markers",
    );
    let mut rules = RuleSet::builder();
    let long = vec![b'x'; 65_536];
    rules.rule(None, false, &[Act::Msg(&long), Act::Rev(b"y")]);
    let sentence = "action 1 (rev) of rule 0: there are more than 65536 bytes of text";
    breaks(rules, Limit::Text, sentence);
}

#[test]
fn numbers_positions_and_bytes() {
    for (act, most) in [
        (Act::Skip(4_294_967_296), 4_294_967_295),
        (Act::Severity(256), 255),
        (Act::Maturity(300), 255),
        (Act::Accuracy(u64::MAX), 255),
        (Act::Status(65_536), 65_535),
    ] {
        let mut rules = RuleSet::builder();
        rules.rule(None, false, &[Act::Deny]);
        rules.rule(None, false, &[Act::Id(u64::MAX), act]);
        let name = act.name();
        let sentence = format!("action 1 ({name}) of rule 1: the number is above {most}");
        breaks(rules, Limit::Number(most), &sentence);
    }
    let mut rules = RuleSet::builder();
    rules.marker_at(b"A", 1);
    let sentence = "marker 0: the position is above the number of rules";
    breaks(rules, Limit::Position, sentence);
    let mut rules = RuleSet::builder();
    rules.rule(None, false, &[Act::Msg(b"plain"), Act::Ver(b"\x80")]);
    let sentence = "action 1 (ver) of rule 0: the text has a byte of 80 (hexadecimal) or more";
    breaks(rules, Limit::HighByte, sentence);
}

#[test]
fn removals() {
    let many = vec!["7"; 200].join(",");
    let removal = Act::Ctl(b"ruleRemoveById", many.as_bytes());
    let target = Act::Ctl(b"ruleRemoveTargetById", b"1;ARGS");
    let mut rules = RuleSet::builder();
    rules
        .rule(None, false, &[target; 65])
        .rule(None, false, &[removal]);
    rules.rule(None, false, &[removal]);
    let sentence = "rule 2: more than 256 ranges are removed up to here";
    breaks(rules, Limit::Ranges, sentence);
    let mut rules = RuleSet::builder();
    rules
        .rule(None, false, &[target; 64])
        .rule(None, false, &[removal, target]);
    let sentence = "rule 1: more than 64 targets are removed up to here";
    breaks(rules, Limit::Targets, sentence);
    let mut rules = RuleSet::builder();
    rules
        .rule(None, false, &[target; 64])
        .rule(None, false, &[removal]);
    assert!(rules.build().is_ok());
}

/// A rule set of one record of a kind.
fn of_rule(rule: Rule) -> RuleSet {
    RuleSet::from_records(vec![rule], vec![], vec![], vec![])
}

fn of_action(action: Action) -> RuleSet {
    RuleSet::from_records(vec![], vec![action], vec![], b"x".to_vec())
}

fn of_marker(name: Part) -> RuleSet {
    let marker = Marker { name, position: 0 };
    RuleSet::from_records(vec![], vec![], vec![marker], b"x".to_vec())
}

/// What only records can break.
#[test]
fn records() {
    let (rule, action) = (Rule::default(), Action::default());
    let outside = Part { start: 1, len: 1 };
    let wraps = Rule {
        first: u64::MAX,
        count: 1,
        ..rule
    };
    let value = Action {
        value: outside,
        ..action
    };
    for (rules, limit) in [
        (of_rule(Rule { present: 2, ..rule }), Limit::Flag),
        (of_rule(Rule { link: 2, ..rule }), Limit::Flag),
        (of_rule(wraps), Limit::ActionsOutside),
        (of_action(Action { kind: 21, ..action }), Limit::Kind),
        (of_action(value), Limit::PartOutside),
        (of_marker(outside), Limit::PartOutside),
    ] {
        let broken = rules.records().check().unwrap_err();
        assert_eq!(broken.limit, limit);
        refused(&rules, limit);
    }
    let high = RuleSet::from_records(vec![], vec![], vec![], vec![b'x', 0xff]);
    assert_eq!(high.records().check().unwrap_err().at, Where::Byte(1));
}
