//! Faults that are planted in a call to which no refusal applies. Each plants the reason of its number and none of a
//! smaller one: so of several that are planted, the greatest first, the smallest is the answer.

use tivembo::{Action, HostIntervention, Marker, Part, Rule};

use crate::given::Given;
use crate::legal::{hold, most};
use crate::random::Random;

/// A reason to refuse a call.
pub struct Fault {
    /// The answer.
    pub number: u64,
    pub name: &'static str,
    pub plant: fn(&mut Given, &mut Random),
    /// Whether questions to the controls and additions to them are refused with 3 too.
    pub is_of_controls: bool,
}

const fn fault(number: u64, name: &'static str, plant: fn(&mut Given, &mut Random)) -> Fault {
    Fault {
        number,
        name,
        plant,
        is_of_controls: false,
    }
}

/// Ranges that are held in a form that is refused with 3.
const fn form(name: &'static str, plant: fn(&mut Given, &mut Random)) -> Fault {
    Fault {
        is_of_controls: true,
        ..fault(3, name, plant)
    }
}

/// In the order of their numbers. 3 has several, so that each form of ranges that is none meets every other fault.
pub static FAULTS: [Fault; 14] = [
    fault(1, "unknown phase or mode", unknown_phase_or_mode),
    fault(2, "too large", too_large),
    fault(3, "more than there is", miscounted),
    form("ranges that touch", touching),
    form("ranges that overlap", overlapping),
    form("ranges out of order", unsorted),
    form("a range that starts above its end", backwards),
    form("a range after the largest number", after_largest),
    fault(4, "number of outcomes", outcome_count),
    fault(5, "bad record", bad_record),
    fault(6, "high byte", high_byte),
    fault(7, "no room", no_room),
    fault(8, "too many ranges", too_many_ranges),
    fault(9, "too many targets", too_many_targets),
];

fn unknown_phase_or_mode(given: &mut Given, random: &mut Random) {
    match random.below(3) {
        0 => given.call.phase = 0,
        1 => given.call.phase = random.above(5),
        _ => given.call.mode = random.above(2),
    }
}

fn too_large(given: &mut Given, random: &mut Random) {
    let more = random.below(3);
    match random.below(4) {
        0 => given.rules.resize(513 + more, Rule::default()),
        1 => given.actions.resize(4_097 + more, Action::default()),
        2 => given.markers.resize(257 + more, Marker::default()),
        _ => given.text.resize(65_537 + more, b'x'),
    }
}

fn miscounted(given: &mut Given, random: &mut Random) {
    let (ids, entries) = (
        given.lists.ids.len() as u64,
        given.lists.entries.len() as u64 / 4,
    );
    let transaction = &mut given.transaction;
    match random.below(4) {
        0 => transaction.controls.ranges = random.above(256),
        1 => transaction.controls.targets = random.above(64),
        2 => transaction.ids = random.above(ids),
        _ => transaction.entries = random.above(entries),
    }
}

/// Two neighbours among the ranges held, by the index of the second. Where there are not as many, some more are held.
fn neighbours(given: &mut Given, random: &mut Random) -> usize {
    let controls = &mut given.transaction.controls;
    if controls.ranges < 2 {
        hold(controls, 2 + random.number(3), random);
    }
    1 + random.below(controls.ranges as usize - 1)
}

fn touching(given: &mut Given, random: &mut Random) {
    let at = neighbours(given, random);
    let controls = &mut given.transaction.controls;
    controls.starts[at] = controls.ends[at - 1] + 1;
}

/// The second starts within the first: at its end, at its start, or between.
fn overlapping(given: &mut Given, random: &mut Random) {
    let at = neighbours(given, random);
    let controls = &mut given.transaction.controls;
    let (start, end) = (controls.starts[at - 1], controls.ends[at - 1]);
    let within = start + random.number(end - start + 1);
    controls.starts[at] = random.of(&[start, end, within]);
}

/// The two change places.
fn unsorted(given: &mut Given, random: &mut Random) {
    let at = neighbours(given, random);
    let controls = &mut given.transaction.controls;
    controls.starts.swap(at - 1, at);
    controls.ends.swap(at - 1, at);
}

fn backwards(given: &mut Given, random: &mut Random) {
    let at = neighbours(given, random);
    let controls = &mut given.transaction.controls;
    let start = controls.starts[at];
    let below = random.number(start);
    controls.ends[at] = random.of(&[start - 1, 0, below]);
}

/// 18446744073709551615 has no follower; in a sum that wraps 0 and 1 would be after it.
fn after_largest(given: &mut Given, random: &mut Random) {
    let at = neighbours(given, random);
    let controls = &mut given.transaction.controls;
    controls.ends[at - 1] = u64::MAX;
    let small = random.number(3);
    (controls.starts[at], controls.ends[at]) = (small, small.max(random.wild()));
    controls.ranges = at as u64 + 1;
}

fn outcome_count(given: &mut Given, random: &mut Random) {
    let rules = given.rules.len();
    match random.below(3) {
        0 => given.outcomes.resize(rules + 1 + random.below(600), 0),
        1 => given.outcomes.truncate(random.below(rules)),
        _ => given.outcomes.clear(),
    }
}

fn bad_record(given: &mut Given, random: &mut Random) {
    let at = random.below(given.rules.len());
    match random.below(7) {
        0 => given.rules[at].present = random.above(1),
        1 => given.rules[at].link = random.above(1),
        2 => actions_outside(given, random, at),
        3 => bad_action(given, random),
        4 => bad_marker(given, random),
        5 => given.outcomes[at] = 4 + random.number(252) as u8,
        _ => unknown_number(given, random),
    }
}

/// A rule whose actions go beyond the list, also where the sum of start and count would wrap.
fn actions_outside(given: &mut Given, random: &mut Random, at: usize) {
    let Part { start, len } = outside(random, given.actions.len());
    (given.rules[at].first, given.rules[at].count) = (start, len);
}

/// A part that ends after a list of so many.
fn outside(random: &mut Random, entries: usize) -> Part {
    let entries = entries as u64;
    let start = random.number(entries + 1);
    let (beyond, more) = (random.above(entries), random.above(entries - start));
    let (any, rest) = (random.wild(), u64::MAX - random.number(2));
    let wraps = Part {
        start: 1 + any.max(1) % (u64::MAX - 2),
        len: rest,
    };
    let choices = [
        Part { start, len: more },
        Part {
            start: beyond,
            len: 0,
        },
        wraps,
    ];
    random.of(&choices)
}

/// An action that no call may have, after the others or in the place of one.
fn bad_action(given: &mut Given, random: &mut Random) {
    let outside = outside(random, given.text.len());
    let kind = random.of(&[8, 16, 17, 18, 20]);
    let good = Action::default();
    let action = match random.below(4) {
        0 => Action {
            kind: random.above(20),
            ..good
        },
        1 => Action {
            kind,
            number: random.above(most(kind)),
            ..good
        },
        2 => Action {
            text: outside,
            ..good
        },
        _ => Action {
            value: outside,
            ..good
        },
    };
    given.actions.push(action);
}

fn bad_marker(given: &mut Given, random: &mut Random) {
    let name = Part::default();
    let marker = match random.one_in(2) {
        true => Marker {
            name,
            position: random.above(given.rules.len() as u64),
        },
        false => Marker {
            name: outside(random, given.text.len()),
            position: 0,
        },
    };
    given.markers.push(marker);
}

/// A number of the transaction that stands for nothing.
fn unknown_number(given: &mut Given, random: &mut Random) {
    let transaction = &mut given.transaction;
    let controls = &mut transaction.controls;
    match random.below(6) {
        0 => controls.mode = random.above(3),
        1 => controls.access = random.above(2),
        2 => controls.processor = random.above(4),
        3 => transaction.allowed = random.above(1),
        4 => transaction.intervention.present = random.above(1),
        _ => unknown_flag(&mut transaction.intervention, random),
    }
}

/// An intervention that is there, with a flag that stands for nothing.
fn unknown_flag(intervention: &mut HostIntervention, random: &mut Random) {
    *intervention = HostIntervention {
        present: 1,
        ..HostIntervention::default()
    };
    let metadata = &mut intervention.metadata;
    let flags = [
        &mut intervention.url.present,
        &mut intervention.log.present,
        &mut intervention.closing.present,
        &mut intervention.starter.present,
        &mut intervention.drop,
        &mut metadata.id.present,
        &mut metadata.msg.present,
        &mut metadata.logdata.present,
        &mut metadata.rev.present,
        &mut metadata.ver.present,
        &mut metadata.severity.present,
        &mut metadata.maturity.present,
        &mut metadata.accuracy.present,
    ];
    let at = random.below(flags.len());
    for (number, flag) in flags.into_iter().enumerate() {
        if number == at {
            *flag = random.above(1);
        }
    }
}

fn high_byte(given: &mut Given, random: &mut Random) {
    let at = random.below(given.text.len());
    given.text[at] = 128 + random.number(128) as u8;
}

fn no_room(given: &mut Given, random: &mut Random) {
    let (rules, transaction) = (given.rules.len(), &given.transaction);
    let free = random.below(rules);
    match random.below(3) {
        0 => given.lists.ids.shorten(transaction.ids as usize + free),
        1 => {
            let whole = transaction.entries as usize + free;
            given.lists.entries.shorten(4 * whole + random.below(4));
        }
        _ => given.lists.journal.shorten(2 * free + random.below(2)),
    }
}

fn too_many_ranges(given: &mut Given, random: &mut Random) {
    let rules = given.rules.len();
    match random.below(3) {
        0 => {
            hold(&mut given.transaction.controls, 256, random);
            directive(given, random, "ruleRemoveById", " +7 ", 1, 1);
        }
        1 => directive(given, random, "RuleRemoveByID", &"1-2,".repeat(257), 1, 1),
        _ => {
            let value = "5,".repeat(257_usize.div_ceil(rules));
            directive(given, random, "ruleremovebyid", &value, 1, rules);
        }
    }
}

fn too_many_targets(given: &mut Given, random: &mut Random) {
    let rules = given.rules.len();
    let (name, value) = ("ruleRemoveTargetById", " 1 ; ARGS ");
    match random.below(3) {
        0 => {
            given.transaction.controls.targets = 64;
            directive(given, random, name, value, 1, 1);
        }
        1 => directive(given, random, name, value, 65, 1),
        _ => directive(given, random, name, value, 65_usize.div_ceil(rules), rules),
    }
}

/// Adds a directive so many times, and makes these the actions of so many rules.
fn directive(
    given: &mut Given,
    random: &mut Random,
    name: &str,
    value: &str,
    times: usize,
    rules: usize,
) {
    let mut put = |added: &str| {
        let start = given.text.len() as u64;
        given.text.extend(added.bytes());
        let len = added.len() as u64;
        Part { start, len }
    };
    let (text, value) = (put(name), put(value));
    let action = Action {
        kind: 19,
        number: random.wild(),
        text,
        value,
    };
    let (first, count) = (given.actions.len() as u64, times as u64);
    given.actions.extend(vec![action; times]);
    let begin = random.below(given.rules.len() - rules + 1);
    for rule in &mut given.rules[begin..begin + rules] {
        (rule.first, rule.count) = (first, count);
    }
}
