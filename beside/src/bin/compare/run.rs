//! Runs over many cases, in blocks that do not depend on each other.

use std::sync::atomic::{AtomicU64, Ordering};
use std::sync::Mutex;
use std::thread;

use beside::case::Case;
use beside::model::Reading;
use beside::random::Random;

use crate::make;
use crate::reached::{Seen, Table};
use crate::sides::{directives, Sides};

/// Calls of a block. Each has random numbers of its own, so that the result is the same with any number of threads.
const BLOCK: u64 = 1_000;

/// So many differences are looked at for their causes, the first ones, and the first of each set of lines that differ: among
/// many of one cause, a rare other one is then still seen if it changes something else.
const LOOKED_AT: usize = 50;

/// What is run.
#[derive(Clone, Copy)]
pub struct Options {
    pub calls: u64,
    pub seed: u64,
    pub planted: Option<Reading>,
}

/// What came of it.
#[derive(Default)]
pub struct Report {
    pub table: Table,
    pub differences: u64,
    /// The differences that are looked at.
    pub found: Vec<Found>,
}

/// A case that differs, up to the call that does.
pub struct Found {
    block: u64,
    pub case: Case,
    differing: Vec<String>,
}

impl Report {
    fn add(&mut self, other: Report) {
        self.table.add(&other.table);
        self.differences += other.differences;
        let mut found = std::mem::take(&mut self.found);
        found.extend(other.found);
        // Blocks end in any order.
        found.sort_by_key(|it| it.block);
        for it in found {
            if self.is_looked_at(&it.differing) {
                self.found.push(it);
            }
        }
    }

    /// Whether one more difference is, in these lines.
    fn is_looked_at(&self, differing: &[String]) -> bool {
        let mut found = self.found.iter();
        self.found.len() < LOOKED_AT || !found.any(|it| it.differing == differing)
    }
}

/// Runs all blocks on all processors.
pub fn run(options: Options) -> Report {
    let (next, whole) = (AtomicU64::new(0), Mutex::new(Report::default()));
    let blocks = options.calls.div_ceil(BLOCK);
    let work = || loop {
        let block = next.fetch_add(1, Ordering::Relaxed);
        if block >= blocks {
            return;
        }
        let report = run_block(options, block);
        whole.lock().expect("no thread fails").add(report);
    };
    let threads = thread::available_parallelism().map_or(1, |count| count.get());
    thread::scope(|scope| {
        for _ in 0..threads {
            scope.spawn(work);
        }
    });
    whole.into_inner().expect("no thread fails")
}

fn run_block(options: Options, block: u64) -> Report {
    let start = Random::new(options.seed).draw().wrapping_add(block);
    let mut random = Random::new(Random::new(start).draw());
    let mut left = BLOCK.min(options.calls - block * BLOCK);
    let mut report = Report::default();
    let mut case = make::at_limits(&mut random, block);
    while left > 0 {
        run_case(options, block, &case, &mut left, &mut report);
        case = make::case(&mut random);
    }
    report
}

/// Runs a case up to the first difference: what comes after it has other transactions.
fn run_case(options: Options, block: u64, case: &Case, left: &mut u64, report: &mut Report) {
    let mut sides = Sides::new(case, options.planted);
    for (at, call) in case.calls.iter().enumerate() {
        if *left == 0 {
            return;
        }
        *left -= 1;
        let directives = directives(call);
        let ran = sides.call(call, &directives);
        let seen = Seen::new(case, call, &directives, &ran);
        report.table.count(&seen.marks());
        if !ran.differing.is_empty() {
            report.differences += 1;
            if report.is_looked_at(&ran.differing) {
                let (mut case, differing) = (case.clone(), ran.differing);
                case.calls.truncate(at + 1);
                report.found.push(Found {
                    block,
                    case,
                    differing,
                });
            }
            return;
        }
    }
}
