//! Everything that a call is given, with guards around the lists that it writes.

use tivembo::raw::{self, words, Lent, Lists};
use tivembo::{
    Action, CallSettings, HostAnswer, HostTransaction, Marker, Mode, Outcome, Records, Rule,
    Transaction, MOST_RANGES, MOST_TARGETS,
};

use crate::random::Random;

/// A phase call: ours, or one that stands in for it.
pub type PhaseCall = fn(&mut HostTransaction, &Lent<'_>, &mut Lists<'_>) -> HostAnswer;

/// Numbers before and after a lent list that belong to nobody.
const GUARD: usize = 4;

/// A list of numbers as it is lent, with guards on both sides. All of them differ.
#[derive(Debug, Clone, PartialEq, Eq)]
pub struct List(Vec<u64>);

impl List {
    pub fn new(length: usize, first: u64) -> Self {
        let number = |at: usize| first.wrapping_sub(at as u64 * 0x0001_0003_0007);
        Self((0..length + 2 * GUARD).map(number).collect())
    }

    pub fn len(&self) -> usize {
        self.0.len() - 2 * GUARD
    }

    /// Lends only so many numbers; what stood after them is guard now.
    pub fn shorten(&mut self, length: usize) {
        self.0.truncate(length + 2 * GUARD);
    }

    fn lent(&mut self) -> &mut [u64] {
        let end = self.0.len() - GUARD;
        &mut self.0[GUARD..end]
    }

    /// Whether the guards are as they are in another.
    fn has_guards_of(&self, other: &Self) -> bool {
        let guards = |list: &Self| {
            let (front, rest) = list.0.split_at(GUARD);
            let back = &rest[rest.len() - GUARD..];
            [front.to_vec(), back.to_vec()]
        };
        guards(self) == guards(other)
    }
}

/// The lists that a call writes.
#[derive(Debug, Clone, PartialEq, Eq)]
pub struct Written {
    pub ids: List,
    pub entries: List,
    pub journal: List,
}

impl Written {
    /// Lists with room for so many rules after what the transaction has in use, and a few numbers more.
    pub fn with_room(random: &mut Random, transaction: &HostTransaction, rules: usize) -> Self {
        let (ids, entries) = (transaction.ids as usize, transaction.entries as usize);
        let mut list = |length, more| List::new(length + random.below(more), random.bits());
        Self {
            ids: list(ids + rules, 4),
            entries: list(4 * (entries + rules), 8),
            journal: list(2 * rules, 4),
        }
    }

    pub fn each_mut(&mut self) -> [&mut List; 3] {
        [&mut self.ids, &mut self.entries, &mut self.journal]
    }

    fn lent(&mut self) -> Lists<'_> {
        Lists {
            ids: self.ids.lent(),
            entries: self.entries.lent(),
            journal: self.journal.lent(),
        }
    }

    /// Whether the guards are as they are in others.
    fn has_guards_of(&self, other: &Self) -> bool {
        self.ids.has_guards_of(&other.ids)
            && self.entries.has_guards_of(&other.entries)
            && self.journal.has_guards_of(&other.journal)
    }
}

/// Everything that a call is given.
#[derive(Debug, Clone, PartialEq, Eq)]
pub struct Given {
    pub call: CallSettings,
    pub rules: Vec<Rule>,
    pub actions: Vec<Action>,
    pub markers: Vec<Marker>,
    pub text: Vec<u8>,
    pub outcomes: Vec<u8>,
    pub transaction: HostTransaction,
    pub lists: Written,
}

impl Given {
    /// Makes the call.
    pub fn call(&mut self, call: PhaseCall) -> HostAnswer {
        let lent = Lent {
            call: self.call,
            rules: words(&self.rules),
            actions: words(&self.actions),
            markers: &self.markers,
            text: &self.text,
            outcomes: &self.outcomes,
        };
        call(&mut self.transaction, &lent, &mut self.lists.lent())
    }

    /// Whether everything that a call may not write at all is as before it.
    pub fn keeps_guards_of(&self, before: &Self) -> bool {
        self.rules == before.rules
            && self.actions == before.actions
            && self.markers == before.markers
            && self.text == before.text
            && self.outcomes == before.outcomes
            && self.lists.has_guards_of(&before.lists)
    }

    /// Whether the crate's own check of a rule set says of the records what a call says that has no other fault.
    pub fn is_checked(&self) -> bool {
        let records = Records {
            rules: &self.rules,
            actions: &self.actions,
            markers: &self.markers,
            text: &self.text,
        };
        let outcomes = vec![Outcome::Missed; self.rules.len()];
        let mut transaction = Transaction::new();
        let ran = transaction.run_records(records, 1, Mode::On, 403, &outcomes);
        let refused = ran.err().map_or(0, |refusal| refusal.number());
        let checked = records.check().err();
        refused == checked.map_or(0, |broken| broken.limit.number())
    }
    /// Whether every question to the controls and every addition to them is answered 3 and changes nothing.
    pub fn controls_are_refused(&self) -> bool {
        let c = self.transaction.controls;
        let asked = [
            raw::engine_mode(c, 0),
            raw::is_rule_removed(c, Some(1).into()),
            raw::is_rule_removed(c, None.into()),
            raw::target_count(c),
            raw::request_body_access(c),
            raw::request_body_processor(c),
        ];
        let changed = [
            raw::remove_range(c, 5, 5),
            raw::remove_range(c, 6, 5),
            raw::remove_target(c, 1, 0),
        ];
        raw::target_at(c, 0).answer == 3
            && asked.iter().all(|asked| asked.answer == 3)
            && changed.iter().all(|it| it.answer == 3 && it.controls == c)
    }

    /// Whether the crate finds the ranges held not to be merged.
    pub fn has_range_fault(&self) -> bool {
        let transaction = Transaction::from_record(self.transaction, Vec::new(), Vec::new());
        transaction.controls().range_fault().is_some()
    }

    /// Whether the crate says of the ranges held what a question says, whatever the record holds.
    pub fn has_fault_told(&self) -> bool {
        let c = self.transaction.controls;
        let counts_more = c.ranges > MOST_RANGES as u64 || c.targets > MOST_TARGETS as u64;
        let is_refused = raw::target_count(c).answer == 3;
        is_refused == (counts_more || self.has_range_fault())
    }
}
