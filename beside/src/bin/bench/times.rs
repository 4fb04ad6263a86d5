//! The sides of a case, timed in turns.

use std::hint::black_box;
use std::time::{Duration, Instant};

use beside::case::Case;
use oracle::{Missed, Timed};

use crate::check::check;
use crate::gateway::Gateway;

/// Many short blocks: some of them fall between what else the computer does.
pub const BLOCKS: usize = 300;
const BLOCK_TIME: Duration = Duration::from_micros(500);

/// Nanoseconds of one call.
#[derive(Debug, Clone, Copy)]
pub struct Times {
    pub ours: f64,
    /// The Rust on rules as the oracle has them, and with no variable at its missed rules.
    pub rust: f64,
    pub bare: f64,
    /// The removal test of every rule alone.
    pub scan: f64,
}

impl Times {
    pub fn ratio(&self) -> f64 {
        self.rust / self.ours
    }

    /// The faster of two passes, side by side.
    pub fn faster(&self, other: &Self) -> Self {
        Self {
            ours: self.ours.min(other.ours),
            rust: self.rust.min(other.rust),
            bare: self.bare.min(other.bare),
            scan: self.scan.min(other.scan),
        }
    }
}

/// Compares the sides of a case and then times them.
pub fn of(case: &Case) -> Times {
    check(case);
    let given = case.written("timed");
    let with_variable = Timed::new(&given, Missed::WithVariable);
    let without = Timed::new(&given, Missed::Bare);
    let mut gateway = Gateway::new(case);
    let scanned = Scan::new(case);
    let [ours, rust, bare, scan] = in_turns([
        &mut |calls| gateway.time(calls),
        &mut |calls| with_variable.time(calls),
        &mut |calls| without.time(calls),
        &mut |calls| scanned.time(calls),
    ]);
    Times {
        ours,
        rust,
        bare,
        scan,
    }
}

/// What one call takes in the fastest block of each side.
pub fn in_turns<const N: usize>(mut sides: [&mut dyn FnMut(u32) -> Duration; N]) -> [f64; N] {
    let calls: Vec<u32> = sides.iter_mut().map(|side| calls_in_block(*side)).collect();
    let mut best = [f64::MAX; N];
    for _ in 0..BLOCKS {
        for ((side, best), &calls) in sides.iter_mut().zip(&mut best).zip(&calls) {
            *best = best.min(side(calls).as_nanos() as f64 / f64::from(calls));
        }
    }
    best
}

/// How many calls fill a block, from the time of a few.
fn calls_in_block(side: &mut dyn FnMut(u32) -> Duration) -> u32 {
    side(10);
    let one = side(10).as_nanos() / 10;
    (BLOCK_TIME.as_nanos() / one.max(1)).clamp(2, 100_000) as u32
}

/// Whether each rule's id lies in a held range, and nothing else of a phase.
struct Scan {
    ids: Vec<u64>,
    ranges: Vec<(u64, u64)>,
}

impl Scan {
    fn new(case: &Case) -> Self {
        let rules = case.calls[0].rules.iter();
        let with_id = rules.filter(|rule| rule.present == 1);
        Self {
            ids: with_id.map(|rule| rule.id).collect(),
            ranges: case.entry.ranges.clone(),
        }
    }

    fn time(&self, calls: u32) -> Duration {
        let begin = Instant::now();
        for _ in 0..calls {
            black_box(black_box(self).removed());
        }
        begin.elapsed()
    }

    fn removed(&self) -> usize {
        let holds = |id: u64| {
            self.ranges
                .iter()
                .any(|&(start, end)| start <= id && id <= end)
        };
        self.ids.iter().filter(|&&id| holds(id)).count()
    }
}
