//! The text of a call, and parts of it.

use beside::random::Random;
use tivembo::Part;

/// How far back an equal text is looked for.
const NEAR: usize = 400;

const NAMES: [&[u8]; 8] = [b"A", b"A", b"B", b"END", b"a", b"A ", b"", b"\x00\x7F"];

const SAID: [&[u8]; 10] = [
    b"",
    b" ",
    b"/station/7",
    b"no such pallet",
    b"A",
    b"\x00",
    b"\x7F",
    b"\x0B\x1F \"quoted\\\"",
    b"3.1",
    b"rule 942100 saw \"%{MATCHED_VAR}\"",
];

#[derive(Default)]
pub struct Texts {
    pub text: Vec<u8>,
}

impl Texts {
    /// A part with these bytes: where they stand already, perhaps within other texts, or at the end.
    pub fn put(&mut self, random: &mut Random, bytes: &[u8]) -> Part {
        let again = random.once_in(3).then(|| self.find(bytes)).flatten();
        let start = again.unwrap_or_else(|| self.add(random, bytes));
        Part {
            start: start as u64,
            len: bytes.len() as u64,
        }
    }

    fn find(&self, bytes: &[u8]) -> Option<usize> {
        if bytes.is_empty() {
            return Some(self.text.len());
        }
        let from = self.text.len().saturating_sub(NEAR);
        let mut windows = self.text[from..].windows(bytes.len());
        windows
            .position(|window| window == bytes)
            .map(|at| from + at)
    }

    /// Adds bytes, at times over the end of the text where that begins as they do.
    fn add(&mut self, random: &mut Random, bytes: &[u8]) -> usize {
        let over = match (self.text.last(), bytes.first()) {
            (Some(last), Some(first)) if last == first && random.once_in(2) => 1,
            _ => 0,
        };
        let start = self.text.len() - over;
        self.text.extend_from_slice(&bytes[over..]);
        start
    }

    /// The name of a marker.
    pub fn name(&mut self, random: &mut Random) -> Part {
        let name = random.pick(&NAMES);
        self.put(random, name)
    }

    /// Any text.
    pub fn said(&mut self, random: &mut Random) -> Part {
        match random.below(6) {
            0 => self.any(random),
            1 => {
                let bytes: Vec<u8> = (0..random.below(12))
                    .map(|_| random.below(128) as u8)
                    .collect();
                self.put(random, &bytes)
            }
            _ => {
                let said = random.pick(&SAID);
                self.put(random, said)
            }
        }
    }

    /// Any part of what is there.
    pub fn any(&self, random: &mut Random) -> Part {
        let start = random.below(self.text.len() + 1);
        let longest = (self.text.len() - start).min(40);
        Part {
            start: start as u64,
            len: random.below(longest + 1) as u64,
        }
    }
}
