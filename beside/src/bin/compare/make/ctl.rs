//! Random ctl actions: directives that meet the ids of a case, unsupported ones, and those of the directive runs.

use beside::random::Random;
use beside::values;

use super::id;

/// Unsupported ones for each reason. They are few, so that the same one is often met again.
const UNSUPPORTED: [(&str, &str); 9] = [
    ("ruleEngine", "Yes"),
    ("ruleRemoveById", "5-4"),
    ("ruleRemoveTargetById", "942100"),
    ("requestBodyAccess", "DetectionOnly"),
    ("requestBodyProcessor", "YAML"),
    ("auditEngine", "On"),
    ("auditLogParts", "+E"),
    ("ruleRemoveByTag", "x"),
    ("", ""),
];

/// Directive and value.
pub fn ctl(random: &mut Random) -> (Vec<u8>, Vec<u8>) {
    if random.once_in(5) {
        return values::directive(random);
    }
    if random.once_in(4) {
        let (name, value) = random.pick(&UNSUPPORTED);
        return recased(random, name, value.as_bytes().to_vec());
    }
    let (name, value) = match random.below(12) {
        0..=2 => ("ruleEngine", mode(random).to_vec()),
        3..=7 => ("ruleRemoveById", removed(random)),
        8..=9 => ("ruleRemoveTargetById", target(random)),
        10 => (
            "requestBodyAccess",
            random.pick(&[&b"On"[..], b"Off"]).to_vec(),
        ),
        _ => (
            "requestBodyProcessor",
            random
                .pick(&[&b"URLENCODED"[..], b"MULTIPART", b"JSON", b"XML"])
                .to_vec(),
        ),
    };
    recased(random, name, value)
}

/// Once in four times in other letters and with blanks around.
fn recased(random: &mut Random, name: &str, value: Vec<u8>) -> (Vec<u8>, Vec<u8>) {
    if random.once_in(4) {
        let name = values::recased(random, name);
        return (values::around(random, name), values::around(random, value));
    }
    (name.as_bytes().to_vec(), value)
}

fn mode(random: &mut Random) -> &'static [u8] {
    random.pick(&[
        &b"On"[..],
        b"On",
        b"DetectionOnly",
        b"DetectionOnly",
        b"Off",
    ])
}

fn removed(random: &mut Random) -> Vec<u8> {
    let count = random.pick(&[1, 1, 1, 2, 3]);
    let parts: Vec<String> = (0..count).map(|_| part(random)).collect();
    parts.join(",").into_bytes()
}

fn part(random: &mut Random) -> String {
    let (a, b) = (id(random), id(random));
    match random.below(12) {
        0..=4 => a.to_string(),
        5 => format!("{a}-{}", a.saturating_add(1)),
        6 => format!("{a}-{b}"),
        7 => String::new(),
        _ => format!("{}-{}", a.min(b), a.max(b)),
    }
}

fn target(random: &mut Random) -> Vec<u8> {
    let variable = random.pick(&[
        "ARGS",
        "ARGS:token",
        "REQUEST_HEADERS:Host",
        "NOTHING",
        "ARGS;b",
    ]);
    format!("{};{variable}", id(random)).into_bytes()
}
