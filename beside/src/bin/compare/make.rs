//! Random cases. All records are well-formed, and no call is refused but for ranges held that are not in the merged form, for its
//! own ranges or for its targets.

mod ctl;
mod held;
mod limits;
mod rules;
mod texts;

use beside::case::{Call, Case};
use beside::random::Random;
use case_format::{BodyProcessor, Entry, Mode};
use tivembo::Marker;

use rules::Rules;
use texts::Texts;

pub use limits::at_limits;

/// Of 100 rules of a call, how many are links, missed and so on; drawn anew for each call, so that some calls have long
/// chains and some many stops.
struct Mood {
    rules: usize,
    links: usize,
    missed: usize,
    errors: usize,
    stops: usize,
    flows: usize,
    ctls: usize,
    /// Of 100 rules, how many have another rule's actions or a part of them.
    shared: usize,
}

impl Mood {
    fn random(random: &mut Random) -> Self {
        let rules = match random.below(100) {
            0..=1 => 0,
            2..=71 => 1 + random.below(8),
            72..=93 => 9 + random.below(8),
            94..=98 => 17 + random.below(16),
            _ => 33 + random.below(100),
        };
        Self {
            rules,
            links: random.pick(&[0, 15, 40, 40, 60, 85]),
            missed: random.pick(&[0, 0, 10, 30]),
            errors: random.pick(&[0, 0, 0, 5]),
            stops: random.pick(&[5, 10, 40]),
            flows: random.pick(&[0, 15, 40]),
            ctls: random.pick(&[0, 15, 40]),
            shared: random.pick(&[0, 0, 0, 0, 0, 30]),
        }
    }
}

pub fn case(random: &mut Random) -> Case {
    let calls = random.pick(&[1, 1, 1, 1, 2, 2, 3, 4]);
    Case {
        mode: random.pick(&[
            Mode::On,
            Mode::On,
            Mode::On,
            Mode::On,
            Mode::On,
            Mode::DetectionOnly,
            Mode::DetectionOnly,
            Mode::Off,
        ]),
        status: status(random),
        entry: entry(random),
        calls: some_calls(random, calls),
    }
}

/// So many calls; at times the last is the first once more, so that what it says of a directive was said before.
fn some_calls(random: &mut Random, count: usize) -> Vec<Call> {
    let mut calls: Vec<Call> = (0..count).map(|_| call(random)).collect();
    if count > 1 && random.once_in(5) {
        calls[count - 1] = Call {
            phase: calls[count - 1].phase,
            ..calls[0].clone()
        };
    }
    calls
}

fn status(random: &mut Random) -> u16 {
    match random.below(8) {
        0 => 0,
        1 => u16::MAX,
        2 => random.draw() as u16,
        _ => 403,
    }
}

fn entry(random: &mut Random) -> Entry {
    Entry {
        mode: setting(random, Mode::ALL),
        body_access: setting(random, &[true, false]),
        body_processor: setting(random, BodyProcessor::ALL),
        ranges: held::ranges(random),
        allowed: random.once_in(60),
        stopped: random.once_in(60),
    }
}

/// Once in four times one of the values.
fn setting<T: Copy>(random: &mut Random, values: &[T]) -> Option<T> {
    random.once_in(4).then(|| random.pick(values))
}

/// Ids that meet each other often, and the ends of all numbers.
fn id(random: &mut Random) -> u64 {
    match random.below(20) {
        0..=12 => 1 + random.below(8) as u64,
        13..=14 => random.pick(&[942_100, 942_999, 943_000]),
        15 => 0,
        16..=17 => u64::MAX,
        18 => u64::MAX - 1,
        _ => random.draw(),
    }
}

fn call(random: &mut Random) -> Call {
    let mood = Mood::random(random);
    call_of(random, &mood)
}

fn call_of(random: &mut Random, mood: &Mood) -> Call {
    let mut texts = Texts::default();
    let count = random.pick(&[0, 1, 1, 2, 2, 3, 5]);
    let markers = markers(random, &mut texts, mood.rules, count);
    let names: Vec<_> = markers.iter().map(|marker| marker.name).collect();
    let rules = Rules::make(random, mood, &mut texts, &names);
    Call {
        phase: 1 + random.below(5) as u64,
        rules: rules.rules,
        outcomes: rules.outcomes,
        actions: rules.actions,
        markers,
        text: texts.text,
    }
}

fn markers(random: &mut Random, texts: &mut Texts, rules: usize, count: usize) -> Vec<Marker> {
    let mut marker = |_| Marker {
        name: texts.name(random),
        position: match random.below(8) {
            0 => 0,
            1 => rules as u64,
            _ => random.below(rules + 1) as u64,
        },
    };
    (0..count).map(&mut marker).collect()
}
