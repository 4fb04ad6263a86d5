//! Random directives, good and damaged, and lists for their ranges.

use crate::random::Random;
use crate::values;

/// What one directive is read from, and how long the two lent lists are.
pub struct Question {
    pub name: Vec<u8>,
    pub value: Vec<u8>,
    pub starts: usize,
    pub ends: usize,
    pub damage: Damage,
}

/// What was done to a directive that was written as it should be.
#[derive(Debug, Clone, Copy, PartialEq, Eq)]
pub enum Damage {
    None,
    NameByteChanged,
    NameByteDropped,
    NameByteAdded,
    ValueByteChanged,
    ValueByteDropped,
    ValueByteAdded,
    ControlByteInName,
    ControlByteInValue,
    HighByte,
    RandomName,
    RandomValue,
    Long,
}

impl Damage {
    pub const ALL: [Damage; 13] = [
        Damage::None,
        Damage::NameByteChanged,
        Damage::NameByteDropped,
        Damage::NameByteAdded,
        Damage::ValueByteChanged,
        Damage::ValueByteDropped,
        Damage::ValueByteAdded,
        Damage::ControlByteInName,
        Damage::ControlByteInValue,
        Damage::HighByte,
        Damage::RandomName,
        Damage::RandomValue,
        Damage::Long,
    ];
}

/// The control bytes that are no blanks, and 7F. 0B and 0C are blanks, and are here to be met inside a text too.
const CONTROL_BYTES: [u8; 9] = [0x00, 0x01, 0x08, 0x0B, 0x0C, 0x0E, 0x1C, 0x1F, 0x7F];

/// Every so many directives one has a long text.
const LONG_EVERY: u64 = 500;

/// The directive number `index`. Long texts come by the index, so that a short run has them too.
pub fn question(random: &mut Random, index: u64) -> Question {
    let (name, value) = values::directive(random);
    let damage = match index % LONG_EVERY {
        0 => Damage::Long,
        _ if random.once_in(2) => Damage::None,
        _ => random.pick(&Damage::ALL[..Damage::ALL.len() - 1]),
    };
    let mut question = Question {
        name,
        value,
        starts: 0,
        ends: 0,
        damage,
    };
    damaged(random, &mut question, index / LONG_EVERY);
    let rooms = rooms(random, &question.value);
    (question.starts, question.ends) = rooms;
    question
}

fn damaged(random: &mut Random, question: &mut Question, long: u64) {
    let Question { name, value, .. } = question;
    match question.damage {
        Damage::None => {}
        Damage::NameByteChanged => change(random, name),
        Damage::NameByteDropped => drop_one(random, name),
        Damage::NameByteAdded => add(random, name),
        Damage::ValueByteChanged => change(random, value),
        Damage::ValueByteDropped => drop_one(random, value),
        Damage::ValueByteAdded => add(random, value),
        Damage::ControlByteInName => insert(random, name, &CONTROL_BYTES),
        Damage::ControlByteInValue => insert(random, value, &CONTROL_BYTES),
        Damage::HighByte => {
            let text = if random.once_in(2) { name } else { value };
            insert(random, text, &[0x80, 0x85, 0xA0, 0xC3, 0xFF]);
        }
        Damage::RandomName => *name = random_bytes(random),
        Damage::RandomValue => *value = random_bytes(random),
        Damage::Long => lengthen(random, name, value, long),
    }
}

/// A byte that stands for another one: mostly one that has a meaning here.
fn other_byte(random: &mut Random) -> u8 {
    match random.below(4) {
        0 => random.below(128) as u8,
        _ => random.pick(b" \t\n\x0B\x0C\r,;-+0123456789aEfNoORx"),
    }
}

fn change(random: &mut Random, text: &mut [u8]) {
    if !text.is_empty() {
        let at = random.below(text.len());
        text[at] = other_byte(random);
    }
}

fn drop_one(random: &mut Random, text: &mut Vec<u8>) {
    if !text.is_empty() {
        text.remove(random.below(text.len()));
    }
}

fn add(random: &mut Random, text: &mut Vec<u8>) {
    let at = random.below(text.len() + 1);
    text.insert(at, other_byte(random));
}

/// One of the bytes, at an end or anywhere.
fn insert(random: &mut Random, text: &mut Vec<u8>, bytes: &[u8]) {
    let at = match random.below(3) {
        0 => 0,
        1 => text.len(),
        _ => random.below(text.len() + 1),
    };
    text.insert(at, random.pick(bytes));
}

fn random_bytes(random: &mut Random) -> Vec<u8> {
    let below = if random.once_in(4) { 256 } else { 128 };
    (0..random.below(20))
        .map(|_| random.below(below) as u8)
        .collect()
}

/// Makes one of the texts as long as the limit of 65,536 bytes, nearly so, or longer. The `turn` goes through lengths
/// and ways.
fn lengthen(random: &mut Random, name: &mut Vec<u8>, value: &mut Vec<u8>, turn: u64) {
    let length = match turn % 8 {
        0 | 1 => 65_536,
        2 => 65_537,
        3 => 65_535,
        4 => 65_538 + random.below(5_000),
        _ => 60_000 + random.below(5_537),
    };
    let in_name = (turn / 8).is_multiple_of(4);
    let text = if in_name { name } else { value };
    let way = if in_name {
        random.below(3)
    } else {
        random.below(8)
    };
    fill(random, text, length, way);
    if length > 65_536 && random.once_in(2) {
        insert(random, text, &[0x80, 0xFF]);
    }
}

fn fill(random: &mut Random, text: &mut Vec<u8>, length: usize, way: usize) {
    let missing = length.saturating_sub(text.len());
    let first_digit = text.iter().position(u8::is_ascii_digit);
    let (at, filling): (usize, &[u8]) = match way {
        0 => (0, b" \t\n\x0B\x0C\r"),
        1 => (text.len(), b"\r\x0C\x0B\n\t "),
        2 => (random.below(text.len() + 1), b"x"),
        3 => (text.len(), b",7"),
        4 => (text.len(), b", 5-9 ,\t"),
        5 => (text.len(), b","),
        6 => (first_digit.unwrap_or(0), b"0"),
        _ => (random.below(text.len() + 1), b";"),
    };
    let filling: Vec<u8> = filling.iter().copied().cycle().take(missing).collect();
    text.splice(at..at, filling);
}

/// Lengths of the two lists, around the number of the value's parts that are not blank.
fn rooms(random: &mut Random, value: &[u8]) -> (usize, usize) {
    let parts = value.split(|&b| b == b',');
    let parts = parts.filter(|part| !part.trim_ascii().is_empty()).count();
    match random.below(12) {
        0 => (0, 0),
        1 => (0, parts),
        2 => (parts.saturating_sub(1), parts),
        3 => (parts, parts.saturating_sub(1)),
        4 => (parts.saturating_sub(1 + random.below(3)), parts + 2),
        5 => (parts + random.below(4), parts + random.below(4)),
        6 => (random.below(320), random.below(320)),
        7 => (256, 256),
        _ => (parts, parts),
    }
}
