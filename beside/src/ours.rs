//! The proved library's side. The records of a case are lent as they are.

mod read;

use crate::case::{Call, Case};
use case_format::{CallResult, Mode};
use tivembo::raw::{run_phase, words, Lent, Lists};
use tivembo::{CallSettings, HostAnswer, HostIntervention, HostTransaction, Place, Report};

/// What entries that a call must not write hold.
const PATTERN: u64 = 0xA5A5_5A5A_0F0F_F0F0;

/// Entries of each list after those that a call may need.
const SPARE: usize = 2;

/// A transaction with its lists.
pub struct Ours {
    mode: Mode,
    status: u64,
    held: Box<HostTransaction>,
    ids: Vec<u64>,
    entries: Vec<u64>,
    journal: Vec<u64>,
}

impl Ours {
    /// The transaction of a case before its first call.
    pub fn new(case: &Case) -> Self {
        let mut held = Box::new(unused());
        let (controls, entry) = (&mut held.controls, &case.entry);
        controls.mode = entry.mode.map_or(0, |mode| 1 + mode.number());
        controls.access = entry.body_access.map_or(0, |on| if on { 1 } else { 2 });
        let processor = entry.body_processor;
        controls.processor = processor.map_or(0, |name| 1 + name.number());
        controls.ranges = entry.ranges.len() as u64;
        for (at, range) in entry.ranges.iter().enumerate() {
            (controls.starts[at], controls.ends[at]) = *range;
        }
        held.allowed = u64::from(entry.allowed);
        if entry.stopped {
            held.intervention = HostIntervention {
                present: 1,
                status: PATTERN,
                ..HostIntervention::default()
            };
        }
        Self {
            mode: case.mode,
            status: u64::from(case.status),
            held,
            ids: Vec::new(),
            entries: Vec::new(),
            journal: Vec::new(),
        }
    }

    /// One call, and what is wrong with it whatever else the Rust says. `adds_ranges` is whether the Rust's plain list is longer after
    /// the call than before; it decides what the array places after those in use must hold.
    pub fn call(&mut self, call: &Call, adds_ranges: bool) -> (CallResult, Vec<&'static str>) {
        self.lend_lists(call.rules.len());
        let before = self.held.clone();
        let lists_before = (self.ids.clone(), self.entries.clone());
        let answer = self.run(call);
        let visits = answer.visits as usize;
        let mut faults = self.faults(&before, &lists_before, visits);
        faults.extend(self.unused_places(&before, adds_ranges));
        let told = answer.report.unsupported;
        let counted = Report {
            unsupported: told,
            ..self.counted(visits)
        };
        if answer.report != counted {
            faults.push("how many visits found each verdict");
        }
        let unsupported = read::unsupported(told.index, told.reason);
        if unsupported.is_none() {
            faults.push("an unsupported directive without a reason");
        }
        let mut found = self.found(call, &before);
        found.answer = read::answer(&answer);
        found.visits = self.visits(visits).filter_map(read::visit).collect();
        found.unsupported = unsupported.flatten();
        (found, faults)
    }

    /// The proved call, on the lists as they are.
    fn run(&mut self, call: &Call) -> HostAnswer {
        let lent = Lent {
            call: CallSettings {
                phase: call.phase,
                mode: self.mode.number(),
                default_status: self.status,
            },
            rules: words(&call.rules),
            actions: words(&call.actions),
            markers: &call.markers,
            text: &call.text,
            outcomes: &call.outcomes,
        };
        let mut lists = Lists {
            ids: &mut self.ids,
            entries: &mut self.entries,
            journal: &mut self.journal,
        };
        run_phase(&mut self.held, &lent, &mut lists)
    }

    /// The journal's entries of so many visits.
    fn visits(&self, count: usize) -> impl Iterator<Item = &[u64]> {
        self.journal.chunks_exact(2).take(count)
    }

    /// How many entries of the journal have each verdict, counted here once more.
    fn counted(&self, visits: usize) -> Report {
        let with = |verdict: u64| {
            let has = |entry: &&[u64]| entry[1] == verdict;
            self.visits(visits).filter(has).count() as u64
        };
        Report {
            missed: with(0),
            matched: with(1),
            removed: with(2),
            errors: with(3),
            ..Report::default()
        }
    }

    /// Lists with room for each rule and a few entries more; what is in use stays.
    fn lend_lists(&mut self, rules: usize) {
        let room = |used: u64, words: usize| (used as usize + rules + SPARE) * words;
        self.ids.resize(room(self.held.ids, 1), PATTERN);
        self.entries.resize(room(self.held.entries, 4), PATTERN);
        self.journal.clear();
        self.journal.resize(room(0, 2), PATTERN);
    }

    /// What no call may do: write where it has nothing to write, take back what was there, change a record idly, or write a
    /// number that stands for nothing.
    fn faults(
        &self,
        before: &HostTransaction,
        lists: &(Vec<u64>, Vec<u64>),
        visits: usize,
    ) -> Vec<&'static str> {
        let mut visited = self.visits(visits);
        let right = [
            (
                "record of a call without visits",
                visits > 0 || *self.held == *before,
            ),
            (
                "a verdict without a name",
                visited.all(|entry| read::visit(entry).is_some()),
            ),
            (
                "a control without a name",
                read::settings(&self.held.controls).is_some(),
            ),
        ];
        let lists = self.kept_lists(before, lists, visits);
        let all = lists
            .into_iter()
            .chain(self.kept_record(before))
            .chain(right);
        all.filter(|(_, right)| !right)
            .map(|(name, _)| name)
            .collect()
    }

    /// Whether each list is as it was besides what the call added.
    fn kept_lists(
        &self,
        before: &HostTransaction,
        (ids, entries): &(Vec<u64>, Vec<u64>),
        visits: usize,
    ) -> [(&'static str, bool); 3] {
        let kept = |now: &[u64], was: &[u64], from: u64, to: u64, words: usize| {
            let (from, to) = (from as usize * words, to as usize * words);
            from <= to && to <= now.len() && now[..from] == was[..from] && now[to..] == was[to..]
        };
        let now = &self.held;
        let ids = kept(&self.ids, ids, before.ids, now.ids, 1);
        let entries = kept(&self.entries, entries, before.entries, now.entries, 4);
        let rest = self.journal.get(2 * visits..);
        let journal = rest.is_some_and(|rest| rest.iter().all(|word| *word == PATTERN));
        [
            ("ids list besides the new ids", ids),
            ("data list besides the new entries", entries),
            ("journal after the visits", journal),
        ]
    }

    /// Whether what was held before a call still is.
    fn kept_record(&self, before: &HostTransaction) -> [(&'static str, bool); 2] {
        let (now, was) = (&self.held.controls, &before.controls);
        let used = ..was.targets as usize;
        let targets =
            now.phases[used] == was.phases[used] && now.positions[used] == was.positions[used];
        let intervention =
            before.intervention.present == 0 || self.held.intervention == before.intervention;
        [
            ("targets held before", targets),
            ("intervention held before", intervention),
        ]
    }

    /// What is wrong with the array places after those in use. Where ranges were added, the places after the ranges are 0; where none
    /// was, their arrays are as found, every place. The places after the targets are as found.
    fn unused_places(&self, before: &HostTransaction, adds_ranges: bool) -> Option<&'static str> {
        let (now, was) = (&self.held.controls, &before.controls);
        fn rest(list: &[u64], used: u64) -> &[u64] {
            &list[(used as usize).min(list.len())..]
        }
        let is_cleared = |list: &[u64]| rest(list, now.ranges).iter().all(|number| *number == 0);
        let ranges = match adds_ranges {
            true => is_cleared(&now.starts) && is_cleared(&now.ends),
            false => now.starts == was.starts && now.ends == was.ends,
        };
        let targets = rest(&now.phases, now.targets) == rest(&was.phases, now.targets)
            && rest(&now.positions, now.targets) == rest(&was.positions, now.targets);
        (!(ranges && targets)).then_some("array places after those in use")
    }

    /// What stands in transaction and lists after a call.
    fn found(&self, call: &Call, before: &HostTransaction) -> CallResult {
        let (now, controls) = (&self.held, &self.held.controls);
        let new = |list: &[u64], from: u64, to: u64, words: usize| {
            let (from, to) = (from as usize * words, (to as usize).saturating_mul(words));
            let used = &list[..to.min(list.len())];
            used.get(from..).map_or(Vec::new(), <[u64]>::to_vec)
        };
        let entries = new(&self.entries, before.entries, now.entries, 4);
        let data = entries.chunks_exact(4);
        let ranges = controls.starts.iter().zip(&controls.ends);
        let places = controls.phases.iter().zip(&controls.positions);
        let places = places
            .take(controls.targets as usize)
            .skip(before.controls.targets as usize);
        let target = |(&phase, &position)| read::target(call, Place { phase, position });
        let (mode, body_access, body_processor) = read::settings(controls).unwrap_or_default();
        CallResult {
            ids: new(&self.ids, before.ids, now.ids, 1),
            data: data.map(|entry| read::data_entry(call, entry)).collect(),
            mode,
            body_access,
            body_processor,
            ranges: ranges
                .take(controls.ranges as usize)
                .map(|(s, e)| (*s, *e))
                .collect(),
            targets: places.map(target).collect(),
            allowed: now.allowed == 1,
            intervention: read::stop(call, before, now),
            ..CallResult::empty(call.phase)
        }
    }
}

/// A transaction that holds nothing, with numbers in it wherever none is to be looked at.
fn unused() -> HostTransaction {
    let mut held = HostTransaction::default();
    held.controls.starts.fill(PATTERN);
    held.controls.ends.fill(PATTERN);
    held.controls.phases.fill(PATTERN);
    held.controls.positions.fill(PATTERN);
    held.intervention.status = PATTERN;
    held.intervention.drop = PATTERN;
    held.intervention.url.present = PATTERN;
    held.intervention.closing.value = PATTERN;
    held
}

#[cfg(test)]
mod tests {
    use super::*;
    use tivembo::HostControls;

    /// What is wrong after something was changed that no call changes, in a transaction with one id and one target.
    fn faults(change: impl Fn(&mut Ours), visits: usize) -> Vec<&'static str> {
        let mut ours = Ours::new(&Case::default());
        (ours.held.ids, ours.held.entries, ours.held.controls.targets) = (1, 1, 1);
        ours.held.intervention = HostIntervention {
            present: 1,
            ..HostIntervention::default()
        };
        ours.lend_lists(2);
        let before = ours.held.clone();
        let lists = (ours.ids.clone(), ours.entries.clone());
        let journal = ours.journal.chunks_exact_mut(2).take(visits);
        journal.for_each(|visit| visit.fill(0));
        change(&mut ours);
        ours.faults(&before, &lists, visits)
    }

    #[test]
    fn every_fault_is_named() {
        assert!(faults(|_| (), 0).is_empty());
        assert!(faults(|ours| (ours.held.ids, ours.ids[1]) = (2, 7), 1).is_empty());
        let ids = ["ids list besides the new ids"];
        assert_eq!(faults(|ours| ours.ids[0] = 7, 1), ids);
        assert_eq!(faults(|ours| ours.ids[2] = 7, 1), ids);
        assert_eq!(faults(|ours| ours.held.ids = 0, 1), ids);
        let data = ["data list besides the new entries"];
        assert_eq!(faults(|ours| ours.entries[3] = 7, 1), data);
        assert_eq!(faults(|ours| ours.entries[4] = 7, 1), data);
        let journal = ["journal after the visits"];
        assert_eq!(faults(|ours| ours.journal[2] = 7, 1), journal);
        assert_eq!(faults(|_| (), 100), journal);
        let record = ["record of a call without visits"];
        assert_eq!(faults(|ours| ours.held.controls.starts[9] = 7, 0), record);
        let targets = ["targets held before"];
        assert_eq!(
            faults(|ours| ours.held.controls.positions[0] = 7, 1),
            targets
        );
        let stop = ["intervention held before"];
        assert_eq!(faults(|ours| ours.held.intervention.status = 7, 1), stop);
        let verdict = ["a verdict without a name"];
        assert_eq!(faults(|ours| ours.journal[1] = 4, 1), verdict);
        let control = ["a control without a name"];
        assert_eq!(faults(|ours| ours.held.controls.mode = 4, 1), control);
        assert_eq!(faults(|ours| ours.held.controls.access = 3, 1), control);
        assert_eq!(faults(|ours| ours.held.controls.processor = 5, 1), control);
    }

    /// Whether places are right after something was changed, in a transaction with two ranges and one target.
    fn unused_are_right(change: impl Fn(&mut HostControls), adds_ranges: bool) -> bool {
        let mut ours = Ours::new(&Case::default());
        (ours.held.controls.ranges, ours.held.controls.targets) = (2, 1);
        let before = ours.held.clone();
        change(&mut ours.held.controls);
        ours.unused_places(&before, adds_ranges).is_none()
    }

    fn clear(controls: &mut HostControls, from: usize) {
        controls.starts[from..].fill(0);
        controls.ends[from..].fill(0);
    }

    #[test]
    fn places_after_those_in_use() {
        assert!(unused_are_right(|_| (), false));
        assert!(!unused_are_right(|_| (), true));
        assert!(unused_are_right(|it| clear(it, 2), true));
        assert!(!unused_are_right(|it| clear(it, 2), false));
        assert!(!unused_are_right(|it| clear(it, 3), true));
        let one_less = |it: &mut HostControls| {
            clear(it, 2);
            it.ranges = 1;
        };
        assert!(!unused_are_right(one_less, true));
        let changed = |it: &mut HostControls| {
            clear(it, 2);
            it.starts[1] = 7;
        };
        assert!(unused_are_right(changed, true));
        assert!(!unused_are_right(|it| it.starts[1] = 7, false));
        assert!(!unused_are_right(|it| it.ends[2] = 7, false));
        assert!(!unused_are_right(|it| it.ends[255] = 7, false));
        assert!(!unused_are_right(|it| it.starts[255] = 0, false));
        assert!(unused_are_right(|it| it.positions[0] = 7, false));
        assert!(!unused_are_right(|it| it.positions[1] = 7, false));
        assert!(!unused_are_right(|it| it.phases[63] = 7, false));
    }
}
