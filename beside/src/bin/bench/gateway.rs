//! The proved call as a gateway makes it: `raw::run_phase` on a transaction and lists that it keeps.

use std::time::{Duration, Instant};

use beside::case::Case;
use tivembo::raw::{run_phase, words, Lent, Lists};
use tivembo::{CallSettings, HostAnswer, HostTransaction};

/// A call that is made again and again. Before each, the whole record is set back to what it holds at entry, outside the
/// measured time. The lists stay as they are: a call looks at nothing after the counts of the record.
pub struct Gateway<'a> {
    lent: Lent<'a>,
    at_entry: Box<HostTransaction>,
    held: Box<HostTransaction>,
    ids: Vec<u64>,
    entries: Vec<u64>,
    journal: Vec<u64>,
}

impl<'a> Gateway<'a> {
    /// The only call of a case, with lists that have just the places it can need. Of what the transaction holds before it,
    /// the ranges are taken.
    pub fn new(case: &'a Case) -> Self {
        let [call] = case.calls.as_slice() else {
            panic!("a case of one call is timed");
        };
        let mut at_entry = Box::new(HostTransaction::default());
        let controls = &mut at_entry.controls;
        controls.ranges = case.entry.ranges.len() as u64;
        for (at, range) in case.entry.ranges.iter().enumerate() {
            (controls.starts[at], controls.ends[at]) = *range;
        }
        let rules = call.rules.len();
        Self {
            lent: Lent {
                call: CallSettings {
                    phase: call.phase,
                    mode: case.mode.number(),
                    default_status: u64::from(case.status),
                },
                rules: words(&call.rules),
                actions: words(&call.actions),
                markers: &call.markers,
                text: &call.text,
                outcomes: &call.outcomes,
            },
            held: at_entry.clone(),
            at_entry,
            ids: vec![0; rules],
            entries: vec![0; 4 * rules],
            journal: vec![0; 2 * rules],
        }
    }

    /// How long so many calls take; all must be answered 0.
    pub fn time(&mut self, calls: u32) -> Duration {
        let mut whole = Duration::ZERO;
        for _ in 0..calls {
            self.set_back();
            let begin = Instant::now();
            let answer = self.call();
            whole += begin.elapsed();
            assert_eq!(answer.answer, 0, "a timed call is not refused");
        }
        whole
    }

    /// One call from the start: its visits, the ids of its matched rules and of its data.
    pub fn results(&mut self) -> Results {
        self.set_back();
        let answer = self.call();
        assert_eq!(answer.answer, 0, "a timed call is not refused");
        let visits = self.journal.chunks_exact(2).take(answer.visits as usize);
        let entries = self.entries.chunks_exact(4);
        Results {
            visits: visits.map(|v| (v[0], v[1])).collect(),
            ids: self.ids[..self.held.ids as usize].to_vec(),
            data: entries
                .take(self.held.entries as usize)
                .map(|e| ((e[0] == 1).then_some(e[1]), e[3]))
                .collect(),
        }
    }

    fn set_back(&mut self) {
        self.held.clone_from(&self.at_entry);
    }

    fn call(&mut self) -> HostAnswer {
        let mut lists = Lists {
            ids: &mut self.ids,
            entries: &mut self.entries,
            journal: &mut self.journal,
        };
        run_phase(&mut self.held, &self.lent, &mut lists)
    }
}

/// Visits as index and verdict, matched ids, and data as id and index.
#[derive(Debug, PartialEq, Eq)]
pub struct Results {
    pub visits: Vec<(u64, u64)>,
    pub ids: Vec<u64>,
    pub data: Vec<(Option<u64>, u64)>,
}
