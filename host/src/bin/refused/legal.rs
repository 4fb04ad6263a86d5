//! Random calls to which no refusal applies. What each part may be is 01's; no code of ours is asked.

use tivembo::{
    Action, CallSettings, HostControls, HostIntervention, HostMetadata, HostNumber, HostPlace,
    HostTransaction, Marker, Part, Rule,
};

use crate::given::{Given, Written};
use crate::random::Random;

/// Directives with their values, one after the other in every text. Each has two ranges or one target at most.
const SUPPORTED: [(&str, &str); 6] = [
    ("ruleRemoveById", "1-5, 7"),
    ("RULEREMOVEBYID ", "942100"),
    ("ruleRemoveTargetById", "1;ARGS"),
    ("ruleEngine", "DetectionOnly"),
    ("requestBodyAccess", "Off"),
    ("requestBodyProcessor", "XML"),
];

/// The same, one for each of 02's reasons, in the order of their numbers.
const UNSUPPORTED: [(&str, &str); 7] = [
    ("ruleEngine", "Of"),
    ("ruleRemoveById", "1,5-4"),
    ("ruleRemoveTargetById", "1;"),
    ("requestBodyAccess", "yes"),
    ("requestBodyProcessor", "YAML"),
    ("auditEngine", "On"),
    ("foo", "1"),
];

/// Where the directives stand in a text.
struct Directives {
    supported: Vec<[Part; 2]>,
    unsupported: Vec<[Part; 2]>,
}

/// A rule has three actions at most, and there are sixteen rules at most where actions may be directives: so at most 96
/// ranges and 48 targets come from rules, and this many may be held.
const HELD_RANGES: u64 = 150;
const HELD_TARGETS: u64 = 16;
const MOST_ACTIONS: usize = 3;
const FEW_RULES: usize = 16;

pub fn legal(random: &mut Random) -> Given {
    let rules = match random.one_in(50) {
        true => 1 + random.below(512),
        false => 1 + random.below(FEW_RULES),
    };
    let (text, directives) = text(random);
    let mut actions: Vec<Action> = (0..random.below(40))
        .map(|_| action(random, text.len(), &directives, rules <= FEW_RULES))
        .collect();
    let transaction = transaction(random);
    let lists = Written::with_room(random, &transaction, rules);
    let mut marker = |_| Marker {
        name: part(random, text.len()),
        position: random.number(rules as u64 + 1),
    };
    let markers = (0..4).map(&mut marker).collect();
    let mut rule = |_| rule(random, actions.len());
    let mut rules: Vec<Rule> = (0..rules).map(&mut rule).collect();
    let mut outcomes: Vec<u8> = rules.iter().map(|_| random.number(4) as u8).collect();
    if random.one_in(2) {
        actions.push(ctl(random, &directives.unsupported));
        (rules[0], outcomes[0]) = closing(random, actions.len());
    }
    Given {
        call: CallSettings {
            phase: 1 + random.number(5),
            mode: random.number(3),
            default_status: random.wild(),
        },
        outcomes,
        rules,
        actions,
        markers,
        text,
        transaction,
        lists,
    }
}

/// A text that begins with some filling and has every directive, and where these stand.
fn text(random: &mut Random) -> (Vec<u8>, Directives) {
    let mut text: Vec<u8> = (0..random.below(60))
        .map(|_| random.number(128) as u8)
        .collect();
    let mut put = |added: &str| {
        let part = Part {
            start: text.len() as u64,
            len: added.len() as u64,
        };
        text.extend(added.bytes());
        part
    };
    let mut put_all = |directives: &[(&str, &str)]| {
        let directives = directives.iter();
        directives
            .map(|(name, value)| [put(name), put(value)])
            .collect()
    };
    let directives = Directives {
        supported: put_all(&SUPPORTED),
        unsupported: put_all(&UNSUPPORTED),
    };
    (text, directives)
}

fn part(random: &mut Random, bytes: usize) -> Part {
    let start = random.below(bytes + 1);
    Part {
        start: start as u64,
        len: random.below(bytes - start + 1) as u64,
    }
}

/// One of these directives.
fn ctl(random: &mut Random, directives: &[[Part; 2]]) -> Action {
    let [text, value] = random.of(directives);
    Action {
        kind: 19,
        number: random.wild(),
        text,
        value,
    }
}

/// A first rule that matches, cannot be removed and is no link, with the last action: where the call is not refused and has
/// anything to do, its unit closes.
fn closing(random: &mut Random, actions: usize) -> (Rule, u8) {
    let rule = Rule {
        first: actions as u64 - 1,
        count: 1,
        ..Rule::default()
    };
    (rule, random.of(&[1, 2]))
}

fn action(random: &mut Random, bytes: usize, directives: &Directives, with_ctl: bool) -> Action {
    if with_ctl && random.one_in(3) {
        let of = random.of(&[&directives.supported, &directives.unsupported]);
        return ctl(random, of);
    }
    // 19 is left out: other parts of the text might be read as more directives than are counted here.
    let kind = random.of(&[
        0, 1, 2, 3, 4, 5, 6, 7, 8, 9, 10, 11, 12, 13, 14, 15, 16, 17, 18, 20,
    ]);
    let any = random.wild();
    let number = match most(kind) {
        u64::MAX => any,
        most => any % (most + 1),
    };
    Action {
        kind,
        number,
        text: part(random, bytes),
        value: part(random, bytes),
    }
}

/// The greatest number of a kind.
pub fn most(kind: u64) -> u64 {
    match kind {
        8 => 4_294_967_295,
        16..=18 => 255,
        20 => 65_535,
        _ => u64::MAX,
    }
}

fn rule(random: &mut Random, actions: usize) -> Rule {
    let first = random.below(actions + 1);
    let count = random.below((actions - first).min(MOST_ACTIONS) + 1);
    Rule {
        // The id of a rule that has none is free.
        present: random.number(2),
        id: random.of(&[3, 7, 942_100, u64::MAX]),
        link: random.number(2),
        first: first as u64,
        count: count as u64,
    }
}

/// A transaction with known numbers and merged ranges, and any numbers where the papers do not look: in array places after those in
/// use, and in what is absent.
fn transaction(random: &mut Random) -> HostTransaction {
    let present = random.number(2);
    HostTransaction {
        controls: controls(random),
        allowed: random.number(2),
        intervention: HostIntervention {
            present,
            ..intervention(random, present == 0)
        },
        ids: random.number(6),
        entries: random.number(6),
    }
}

fn controls(random: &mut Random) -> HostControls {
    let mut controls = HostControls {
        mode: random.number(4),
        access: random.number(3),
        processor: random.number(5),
        ranges: 0,
        targets: random.number(HELD_TARGETS + 1),
        starts: std::array::from_fn(|_| random.wild()),
        ends: std::array::from_fn(|_| random.wild()),
        phases: std::array::from_fn(|_| random.wild()),
        positions: std::array::from_fn(|_| random.wild()),
    };
    let count = random.number(HELD_RANGES + 1);
    hold(&mut controls, count, random);
    controls
}

/// Holds so many ranges, in the form in which 02 has them held: each starts at least two above the end before it.
pub fn hold(controls: &mut HostControls, count: u64, random: &mut Random) {
    controls.ranges = count;
    let mut start = random.number(2);
    // With room for 256, each takes an id at least and leaves one free.
    let widest = random.of(&[1, 3, 1 << 40, (u64::MAX - 2) / 512]);
    for at in 0..count as usize {
        let end = start + random.number(widest);
        (controls.starts[at], controls.ends[at]) = (start, end);
        start = end + 2 + random.number(widest);
    }
    if count > 0 && random.one_in(4) {
        controls.ends[count as usize - 1] = u64::MAX;
    }
}

/// An intervention. Where it is absent its flags are free too.
fn intervention(random: &mut Random, absent: bool) -> HostIntervention {
    let flag = |random: &mut Random| {
        if absent {
            random.wild()
        } else {
            random.number(2)
        }
    };
    let mut number = || HostNumber {
        present: flag(random),
        value: random.wild(),
    };
    let [closing, starter, id, severity, maturity, accuracy] = std::array::from_fn(|_| number());
    let mut place = || HostPlace {
        present: flag(random),
        phase: random.wild(),
        position: random.wild(),
    };
    let [url, log, msg, logdata, rev, ver] = std::array::from_fn(|_| place());
    HostIntervention {
        present: 0,
        status: random.wild(),
        url,
        log,
        closing,
        starter,
        phase: random.wild(),
        drop: flag(random),
        metadata: HostMetadata {
            id,
            msg,
            logdata,
            rev,
            ver,
            severity,
            maturity,
            accuracy,
        },
    }
}
