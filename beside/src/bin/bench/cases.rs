//! The calls that are timed beside the Rust.

use beside::case::{outcome, Call, Case};
use case_format::Entry;
use tivembo::{Act, Builder, RuleSet};

use crate::core_rules;

/// A case of one call, and how many times as long the Rust's call must at least take.
#[derive(Clone)]
pub struct Measured {
    pub name: &'static str,
    pub what: String,
    pub bound: f64,
    pub case: Case,
}

/// The ids of the rules, six digits as in the OWASP rules, and where ranges that remove none of them begin.
const FIRST_ID: u64 = 500_000;
const BELOW: u64 = 100_000;
const ABOVE: u64 = 900_000;

/// What [`both_sides`] is.
pub const BOTH_SIDES: &str = "256 ranges, half below and half above all ids";

pub fn all() -> Vec<Measured> {
    [without_match(), with_matches()].concat()
}

fn without_match() -> Vec<Measured> {
    let cases = [
        ("512-no-ranges", "no ranges", 15.0, Vec::new()),
        (
            "512-ranges-above",
            "256 ranges above all ids",
            60.0,
            ranges(ABOVE, 256),
        ),
        (
            "512-ranges-below",
            "256 ranges below all ids",
            60.0,
            ranges(BELOW, 256),
        ),
        ("512-ranges-in-turn", BOTH_SIDES, 60.0, both_sides()),
    ];
    let measured = cases.map(|(name, what, bound, ranges)| Measured {
        name,
        what: format!("512 rules, no match, {what}"),
        bound,
        case: missed(512, ranges),
    });
    measured.to_vec()
}

fn with_matches() -> Vec<Measured> {
    let core = "like the Core Rule Set's phase 2, paranoia level";
    let cases = [
        ("64-ctl", "64 rules, 10 match with ctl".to_string(), mixed()),
        ("core-level-1", format!("{core} 1"), core_rules::case(1)),
        ("core-level-4", format!("{core} 4"), core_rules::case(4)),
    ];
    let measured = cases.map(|(name, what, case)| Measured {
        name,
        what,
        bound: 10.0,
        case,
    });
    measured.to_vec()
}

/// A case of one call in phase 2, mode On.
pub fn case(rules: Builder, outcomes: Vec<u8>, ranges: Vec<(u64, u64)>) -> Case {
    let set = rules.build().expect("the rules are within the limits");
    Case {
        entry: Entry {
            ranges,
            ..Entry::default()
        },
        calls: vec![Call::of_rules(2, &set, outcomes)],
        ..Case::default()
    }
}

/// So many rules with an id, an id action and a deny, none of which matches.
pub fn missed(count: u64, ranges: Vec<(u64, u64)>) -> Case {
    let mut rules = RuleSet::builder();
    for index in 0..count {
        missed_rule(&mut rules, index);
    }
    case(rules, vec![outcome::MISSED; count as usize], ranges)
}

fn missed_rule(rules: &mut Builder, index: u64) {
    let id = FIRST_ID + index;
    rules.rule(Some(id), false, &[Act::Id(id), Act::Deny]);
}

/// So many ranges of one to four ids each, in the form in which they are held.
fn ranges(from: u64, count: u64) -> Vec<(u64, u64)> {
    (0..count)
        .map(|k| (from + 10 * k, from + 10 * k + k % 4))
        .collect()
}

/// 256 ranges: the ids lie between the two in the middle.
pub fn both_sides() -> Vec<(u64, u64)> {
    [ranges(BELOW, 128), ranges(ABOVE, 128)].concat()
}

/// Of 64 rules the ten at 3, 9, 15 and on to 57 match; they have pass and one ctl action.
fn mixed() -> Case {
    let mut rules = RuleSet::builder();
    let mut outcomes = Vec::new();
    for index in 0..64 {
        let matches = index % 6 == 3 && index <= 57;
        if matches {
            matched_rule(&mut rules, index);
        } else {
            missed_rule(&mut rules, index);
        }
        outcomes.push(match matches {
            true => outcome::MATCHED_VARIABLE,
            false => outcome::MISSED,
        });
    }
    case(rules, outcomes, Vec::new())
}

fn matched_rule(rules: &mut Builder, index: u64) {
    let removed = (ABOVE + index).to_string();
    let ctl = match index / 6 % 3 {
        0 => Act::Ctl(b"ruleRemoveById", removed.as_bytes()),
        1 => Act::Ctl(b"ruleEngine", b"On"),
        _ => Act::Ctl(b"ruleRemoveTargetById", b"1;ARGS"),
    };
    let id = FIRST_ID + index;
    rules.rule(Some(id), false, &[Act::Id(id), Act::Pass, ctl]);
}
