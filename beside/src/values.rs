//! Random names and values of directives, as the manual writes them and in odd forms that have a meaning too.

use crate::random::Random;

const BLANKS: [u8; 6] = [0x09, 0x0A, 0x0B, 0x0C, 0x0D, 0x20];
const MODES: [&str; 3] = ["On", "Off", "DetectionOnly"];
const SWITCHES: [&str; 2] = ["On", "Off"];
const PROCESSORS: [&str; 4] = ["URLENCODED", "MULTIPART", "JSON", "XML"];
const OTHER_WORDS: [&str; 8] = [
    "",
    "Yes",
    "1",
    "YAML",
    "Detection",
    "OnOff",
    "abcdefghij",
    "URL",
];
const OTHER_NAMES: [&str; 7] = [
    "auditEngine",
    "auditLogParts",
    "ruleRemoveByTag",
    "ruleRemoveTargetByTag",
    "responseBodyAccess",
    "ruleRemove",
    "",
];

/// A directive's name and value.
pub fn directive(random: &mut Random) -> (Vec<u8>, Vec<u8>) {
    let (name, value) = match random.below(20) {
        0..=2 => ("ruleEngine", word(random, &MODES)),
        3..=10 => ("ruleRemoveById", ranges(random)),
        11..=13 => ("ruleRemoveTargetById", target(random)),
        14..=15 => ("requestBodyAccess", word(random, &SWITCHES)),
        16..=18 => ("requestBodyProcessor", word(random, &PROCESSORS)),
        _ => (random.pick(&OTHER_NAMES), any_value(random)),
    };
    let value = if random.once_in(20) {
        any_value(random)
    } else {
        value
    };
    let name = recased(random, name);
    (around(random, name), around(random, value))
}

fn any_value(random: &mut Random) -> Vec<u8> {
    match random.below(5) {
        0 => word(random, &MODES),
        1 => word(random, &PROCESSORS),
        2 => ranges(random),
        3 => target(random),
        _ => word(random, &OTHER_WORDS),
    }
}

fn word(random: &mut Random, words: &[&'static str]) -> Vec<u8> {
    let word = if random.once_in(6) {
        random_word(random)
    } else {
        random.pick(words)
    };
    recased(random, word)
}

fn random_word(random: &mut Random) -> &'static str {
    random.pick(&OTHER_WORDS)
}

/// As written, in capitals, in small letters, or each letter in either case.
pub fn recased(random: &mut Random, word: &str) -> Vec<u8> {
    let mut word = word.as_bytes().to_vec();
    match random.below(4) {
        0 => {}
        1 => word.make_ascii_lowercase(),
        2 => word.make_ascii_uppercase(),
        _ => {
            for byte in word.iter_mut().filter(|b| b.is_ascii_alphabetic()) {
                *byte ^= if random.once_in(2) { 0x20 } else { 0 };
            }
        }
    }
    word
}

fn blanks(random: &mut Random) -> Vec<u8> {
    let count = if random.once_in(2) {
        random.below(4)
    } else {
        0
    };
    (0..count).map(|_| random.pick(&BLANKS)).collect()
}

/// Blanks before and after, or none.
pub fn around(random: &mut Random, text: Vec<u8>) -> Vec<u8> {
    [blanks(random), text, blanks(random)].concat()
}

/// A list of ranges. One in three has something wrong at one of its parts, and some have no part at all.
fn ranges(random: &mut Random) -> Vec<u8> {
    let count = match random.below(40) {
        0 => random.below(300),
        1 => 0,
        2..=9 => 2 + random.below(10),
        _ => 1 + random.below(3),
    };
    let wrong = if random.once_in(3) {
        random.below(count + 1)
    } else {
        usize::MAX
    };
    let mut parts = Vec::new();
    for i in 0..count {
        let part = if i == wrong {
            wrong_part(random)
        } else {
            part(random)
        };
        parts.push(around(random, part));
        if random.once_in(6) {
            parts.push(blanks(random));
        }
    }
    if random.once_in(8) {
        parts.insert(0, blanks(random));
    }
    parts.join(&b',')
}

fn part(random: &mut Random) -> Vec<u8> {
    let (a, b) = (number(random), number(random));
    if random.once_in(2) {
        return spelled(random, a);
    }
    let (start, end) = if random.once_in(8) {
        (0, u64::MAX)
    } else {
        (a.min(b), a.max(b))
    };
    let (start, end) = (spelled(random, start), spelled(random, end));
    dashed(random, start, end)
}

fn dashed(random: &mut Random, start: Vec<u8>, end: Vec<u8>) -> Vec<u8> {
    [start, blanks(random), b"-".to_vec(), blanks(random), end].concat()
}

fn wrong_part(random: &mut Random) -> Vec<u8> {
    let (a, b) = (number(random), number(random));
    let good = spelled(random, a);
    let wrong = wrong_number(random);
    match random.below(8) {
        0..=1 => wrong,
        2 => dashed(random, good, wrong),
        3 => dashed(random, wrong, good),
        4 => dashed(random, good, Vec::new()),
        5 => dashed(random, Vec::new(), good),
        6 => {
            let third = dashed(random, good.clone(), good.clone());
            dashed(random, good, third)
        }
        _ => {
            let (start, end) = (spelled(random, a.max(b).max(1)), spelled(random, a.min(b)));
            dashed(random, start, end)
        }
    }
}

fn number(random: &mut Random) -> u64 {
    match random.below(6) {
        0 => random.below(10) as u64,
        1 => u64::MAX - random.below(3) as u64,
        2 => {
            let shift = random.below(64);
            random.draw() >> shift
        }
        _ => 942_000 + random.below(1000) as u64,
    }
}

/// A number's digits, at times after a plus sign, and with zeros up to 20, 21 or another number of digits.
fn spelled(random: &mut Random, number: u64) -> Vec<u8> {
    let sign = if random.once_in(8) { "+" } else { "" };
    let width = match random.below(20) {
        0 => 20,
        1 => 21,
        2 => random.below(40),
        _ => 0,
    };
    format!("{sign}{number:0width$}").into_bytes()
}

fn wrong_number(random: &mut Random) -> Vec<u8> {
    let above = u128::from(u64::MAX) + 1;
    let text = match random.below(12) {
        0 => above.to_string(),
        1 => (above + u128::from(random.draw())).to_string(),
        2 => format!("{:021}", above + random.below(10) as u128),
        3 => format!("9{}", random.draw()),
        4 => format!("{}00000000000000000000", 1 + random.below(9)),
        5 => format!("1{}", u64::MAX),
        6 => "+".to_string(),
        7 => format!("++{}", random.below(100)),
        8 => format!("{} {}", random.below(100), random.below(100)),
        9 => format!("0x{:x}", random.below(100)),
        10 => format!("{}+", random.below(100)),
        _ => random
            .pick(&[
                "-", "--", "+-1", "-1", "1a", "a", "1.0", "1_0", "1;2", "/", ":", "5:", "\x00",
            ])
            .to_string(),
    };
    text.into_bytes()
}

/// A target: an id text and a target text, and now and then no ';', several, or an empty side.
fn target(random: &mut Random) -> Vec<u8> {
    let id = side(
        random,
        &["942100", "1", "x", "942100-942999", "-", "+7", "a b"],
    );
    let target = side(
        random,
        &[
            "ARGS:token",
            "ARGS",
            "REQUEST_HEADERS:User-Agent",
            "&ARGS",
            "nothing",
            "a\\\"b",
            ",",
        ],
    );
    let mut text = id;
    match random.below(10) {
        0 => {}
        1 => text.extend_from_slice(b";;"),
        2 => {
            text.push(b';');
            text.extend(target.clone());
            text.push(b';');
        }
        _ => text.push(b';'),
    }
    text.extend(target);
    text
}

fn side(random: &mut Random, texts: &[&str]) -> Vec<u8> {
    let text = if random.once_in(10) {
        ""
    } else {
        random.pick(texts)
    };
    around(random, text.as_bytes().to_vec())
}
