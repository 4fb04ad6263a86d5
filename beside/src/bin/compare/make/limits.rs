//! Cases at 01's limits.

use beside::case::{kind, outcome, Call, Case};
use beside::random::Random;
use case_format::Mode;
use tivembo::{Action, Rule};

use super::texts::Texts;
use super::{call_of, entry, markers, status, Mood};

const MOST_RULES: usize = 512;
const MOST_ACTIONS: usize = 4_096;
const MOST_MARKERS: usize = 256;
const MOST_TEXT: usize = 65_536;
const MOST_RANGES: usize = 256;
const MOST_TARGETS: usize = 64;

/// A case at some limit, another for each turn.
pub fn at_limits(random: &mut Random, turn: u64) -> Case {
    match turn % 4 {
        0 => largest(random),
        1 => most_controls(random),
        2 => full_after_merging(random),
        _ => no_place_left(random),
    }
}

/// As many rules, actions, markers and bytes as a call may have.
fn largest(random: &mut Random) -> Case {
    let mood = Mood {
        rules: MOST_RULES,
        links: 30,
        missed: 30,
        errors: 0,
        stops: 1,
        flows: 3,
        ctls: 2,
        shared: 5,
    };
    let mut call = call_of(random, &mood);
    let unowned = Action {
        kind: kind::OTHER,
        ..Action::default()
    };
    call.actions.resize(MOST_ACTIONS, unowned);
    let mut texts = Texts {
        text: std::mem::take(&mut call.text),
    };
    let more = MOST_MARKERS - call.markers.len();
    call.markers
        .extend(markers(random, &mut texts, MOST_RULES, more));
    call.text = texts.text;
    call.text.resize(MOST_TEXT, b' ');
    Case {
        mode: random.pick(&[Mode::On, Mode::DetectionOnly]),
        status: status(random),
        calls: vec![call],
        ..Case::default()
    }
}

/// A call of so many rules in which nothing adds a range or a target.
fn without_controls(random: &mut Random, rules: usize) -> Call {
    let mood = Mood {
        rules,
        ctls: 0,
        shared: 0,
        ..Mood::random(random)
    };
    call_of(random, &mood)
}

/// A case in mode On that holds nothing but these ranges and settings of the body.
fn case_of(random: &mut Random, ranges: Vec<(u64, u64)>, calls: Vec<Call>) -> Case {
    let mut entry = entry(random);
    (entry.mode, entry.allowed, entry.stopped) = (None, false, false);
    entry.ranges = ranges;
    Case {
        mode: Mode::On,
        status: status(random),
        entry,
        calls,
    }
}

/// So many ranges of two ids from 1,000 on, with one id between each two.
fn apart(count: usize) -> Vec<(u64, u64)> {
    let starts = (0..count as u64).map(|at| 1_000 + 3 * at);
    starts.map(|start| (start, start + 1)).collect()
}

/// So many of the ids between these, and ids below all of them, each as a part of a directive.
fn between(count: usize) -> Vec<String> {
    (0..count).map(|at| (1_002 + 3 * at).to_string()).collect()
}

fn below(count: usize) -> Vec<String> {
    (0..count).map(|at| (2 * at).to_string()).collect()
}

/// A first call that fills ranges and targets to their limits, half of the ranges held before it, a second one that meets
/// them, and one that has a target more.
fn most_controls(random: &mut Random) -> Case {
    let half = MOST_RANGES / 2;
    let mut first = without_controls(random, 5);
    remove(random, &mut first, &below(half), MOST_TARGETS);
    let second = without_controls(random, 8);
    let mut third = without_controls(random, 5);
    remove(random, &mut third, &[], 1);
    case_of(random, apart(half), vec![first, second, third])
}

/// A first call whose ranges merge in part, a second one that adds as many as then have a place, so that 256 are held, and
/// one more, for which there is none.
fn full_after_merging(random: &mut Random) -> Case {
    let half = MOST_RANGES / 2;
    // Each id between two held ranges makes one of both and itself, so that two places more are left.
    let bridges = 1 + random.below(20);
    let first = [between(bridges), below(half - bridges)].concat();
    let above = (0..2 * bridges).map(|at| (5_000 + 2 * at).to_string());
    let mut calls: Vec<Call> = (0..3).map(|_| without_controls(random, 5)).collect();
    for (call, ids) in (0..).zip([first, above.collect(), between(1)]) {
        remove(random, &mut calls[call], &ids, 0);
    }
    case_of(random, apart(half), calls)
}

/// Calls that have a range too many: held already, merging with what is held, and merging with nothing; and one without any.
fn no_place_left(random: &mut Random) -> Case {
    let free = random.pick(&[0, 0, 1, 2, 50]);
    let covered = vec!["1000-1001".to_string(); free + 1];
    let mut calls: Vec<Call> = (0..4).map(|_| without_controls(random, 5)).collect();
    for (call, ids) in (0..).zip([covered, between(free + 1), below(free + 1)]) {
        remove(random, &mut calls[call], &ids, 0);
    }
    case_of(random, apart(MOST_RANGES - free), calls)
}

/// Gives the first rule, which is made to match alone, directives that remove these ids and so many targets.
fn remove(random: &mut Random, call: &mut Call, ids: &[String], targets: usize) {
    let mut texts = Texts {
        text: std::mem::take(&mut call.text),
    };
    let mut ctl = |name: &str, value: &str| Action {
        kind: kind::CTL,
        text: texts.put(random, name.as_bytes()),
        value: texts.put(random, value.as_bytes()),
        ..Action::default()
    };
    let first = call.actions.len();
    if !ids.is_empty() {
        call.actions.push(ctl("ruleRemoveById", &ids.join(",")));
    }
    for at in 0..targets {
        let value = format!("{at};ARGS:a{at}");
        call.actions.push(ctl("ruleRemoveTargetById", &value));
    }
    call.rules[0] = Rule {
        present: 1,
        id: 1_000_003,
        link: 0,
        first: first as u64,
        count: (call.actions.len() - first) as u64,
    };
    call.outcomes[0] = outcome::MATCHED;
    call.text = texts.text;
}
