//! A transaction and its phase calls.

use crate::controls::Controls;
use crate::intervention::Intervention;
use crate::limits::MOST_RULES;
use crate::phase::{Before, Phase};
use crate::raw::{self, Lent, Lists};
use crate::records::{CallSettings, DataEntry, HostChangeAnswer, HostTransaction, JournalEntry};
use crate::ruleset::{Records, RuleSet};
use crate::values::{Data, Mode, Outcome, Place};
use crate::Refusal;

/// What stays from phase to phase of one request: the controls, whether it is allowed or stopped, the matched ids and the
/// data entries. The lists grow as the calls need it.
///
/// ```
/// use tivembo::{Act, Mode, Outcome, RuleSet, Transaction, Verdict};
///
/// let mut rules = RuleSet::builder();
/// rules.rule(Some(20), true, &[Act::Id(20), Act::Deny]);
/// rules.rule(Some(21), false, &[Act::Id(21), Act::Pass]);
/// let rules = rules.build()?;
///
/// let mut transaction = Transaction::new();
/// let matched = Outcome::MatchedVariable;
/// let phase = transaction.run_phase(&rules, 2, Mode::On, 403, &[matched, matched])?;
/// let visits: Vec<_> = phase.visits().collect();
/// assert_eq!(visits, [(0, Verdict::Matched), (1, Verdict::Matched)]);
/// assert_eq!(phase.ids(), [20]);
/// let stop = phase.intervention().expect("deny stops the request");
/// assert_eq!(stop.status, 403);
/// assert_eq!(stop.ids().collect::<Vec<_>>(), [21, 20]);
/// # Ok::<(), Box<dyn std::error::Error>>(())
/// ```
#[derive(Debug, Clone)]
pub struct Transaction {
    record: HostTransaction,
    ids: Vec<u64>,
    entries: Vec<DataEntry>,
    journal: Vec<JournalEntry>,
    grows: bool,
}

impl Default for Transaction {
    fn default() -> Self {
        Self::new()
    }
}

impl Transaction {
    /// A transaction that holds nothing.
    pub fn new() -> Self {
        Self::from_record(HostTransaction::default(), Vec::new(), Vec::new())
    }

    /// A transaction that holds nothing, with lists of these lengths, which never grow: a call that could need more is
    /// refused ([`Refusal::NoRoom`]), and no call asks for memory.
    ///
    /// ```
    /// use tivembo::{Mode, Outcome, Refusal, RuleSet, Transaction};
    ///
    /// let mut rules = RuleSet::builder();
    /// rules.rule(Some(1), false, &[]).rule(Some(2), false, &[]);
    /// let rules = rules.build()?;
    /// let mut transaction = Transaction::with_room(1, 2, 2);
    /// let ran = transaction.run_phase(&rules, 1, Mode::On, 403, &[Outcome::Missed; 2]);
    /// assert_eq!(ran.unwrap_err(), Refusal::NoRoom);
    /// # Ok::<(), Box<dyn std::error::Error>>(())
    /// ```
    pub fn with_room(ids: usize, entries: usize, journal: usize) -> Self {
        Self {
            record: HostTransaction::default(),
            ids: vec![0; ids],
            entries: vec![DataEntry::default(); entries],
            journal: vec![JournalEntry::default(); journal],
            grows: false,
        }
    }

    /// A transaction of a record and lists as they are, whatever they hold. Ranges that a host has in any order it adds with
    /// [`remove_range`](Self::remove_range), which merges them.
    pub fn from_record(record: HostTransaction, ids: Vec<u64>, entries: Vec<DataEntry>) -> Self {
        Self {
            record,
            ids,
            entries,
            journal: Vec::new(),
            grows: true,
        }
    }

    /// Runs one phase: its rule set, its number (1 to 5), the rule set's mode, the status that `block` stands for, and an
    /// outcome for each rule. A refused call changes nothing.
    pub fn run_phase(
        &mut self,
        rules: &RuleSet,
        phase: u64,
        mode: Mode,
        status: u64,
        outcomes: &[Outcome],
    ) -> Result<Phase<'_>, Refusal> {
        self.run_records(rules.records(), phase, mode, status, outcomes)
    }

    /// The same with lent records.
    ///
    /// ```
    /// use tivembo::{Action, Mode, Outcome, Records, Rule, Transaction};
    ///
    /// let records = Records {
    ///     rules: &[Rule { present: 1, id: 10, link: 0, first: 0, count: 1 }],
    ///     actions: &[Action { kind: 1, ..Action::default() }],
    ///     ..Records::default()
    /// };
    /// let mut transaction = Transaction::new();
    /// transaction.run_records(records, 2, Mode::On, 403, &[Outcome::Matched])?;
    /// assert_eq!(transaction.intervention().map(|stop| stop.status), Some(403));
    /// # Ok::<(), tivembo::Refusal>(())
    /// ```
    pub fn run_records(
        &mut self,
        records: Records<'_>,
        phase: u64,
        mode: Mode,
        status: u64,
        outcomes: &[Outcome],
    ) -> Result<Phase<'_>, Refusal> {
        self.make_room(records.rules.len());
        let before = Before::of(&self.record);
        let lent = Lent {
            call: CallSettings {
                phase,
                mode: mode.number(),
                default_status: status,
            },
            rules: raw::words(records.rules),
            actions: raw::words(records.actions),
            markers: records.markers,
            text: records.text,
            outcomes: raw::outcome_bytes(outcomes),
        };
        let mut lists = Lists {
            ids: &mut self.ids,
            entries: raw::words_mut(&mut self.entries),
            journal: raw::words_mut(&mut self.journal),
        };
        let answer = raw::run_phase(&mut self.record, &lent, &mut lists);
        Refusal::unless(answer.answer, Phase::new(self, answer, before))
    }

    /// Lists that have a free entry for each rule, unless they are not to grow. Too many rules, and counts that no list has,
    /// are left to the call, which refuses them.
    fn make_room(&mut self, rules: usize) {
        if !self.grows || rules > MOST_RULES {
            return;
        }
        grow(&mut self.ids, self.record.ids, rules);
        grow(&mut self.entries, self.record.entries, rules);
        grow(&mut self.journal, 0, rules);
    }

    /// Whether a rule has allowed the request: then later phases find nothing to do.
    pub fn is_allowed(&self) -> bool {
        self.record.allowed == 1
    }

    /// What stops the request, if anything does.
    pub fn intervention(&self) -> Option<Intervention> {
        Intervention::from_record(&self.record.intervention)
    }

    /// The ids of all calls so far.
    pub fn matched_ids(&self) -> &[u64] {
        used(&self.ids, self.record.ids)
    }

    /// The data entries of all calls so far.
    pub fn data(&self) -> impl Iterator<Item = Data> + '_ {
        self.data_records().iter().map(Data::from)
    }

    /// The controls.
    pub fn controls(&self) -> Controls<'_> {
        Controls(&self.record.controls)
    }

    /// Removes all rules with an id from `start` to `end`, both included, as a ruleRemoveById does. The range is merged with
    /// those held, which can then be fewer. Refused with 5 (start above end) and 8 (256 ranges are held, also where this one
    /// would merge).
    ///
    /// ```
    /// use tivembo::Transaction;
    /// let mut transaction = Transaction::new();
    /// transaction.remove_range(1, 1)?;
    /// transaction.remove_range(3, 3)?;
    /// transaction.remove_range(2, 2)?;
    /// assert_eq!(transaction.controls().ranges().collect::<Vec<_>>(), [(1, 3)]);
    /// # Ok::<(), tivembo::Refusal>(())
    /// ```
    pub fn remove_range(&mut self, start: u64, end: u64) -> Result<(), Refusal> {
        self.change(raw::remove_range(self.record.controls, start, end))
    }

    /// Removes the target whose action stands at a place. Refused with 9 (64 targets are held).
    pub fn remove_target(&mut self, target: Place) -> Result<(), Refusal> {
        let Place { phase, position } = target;
        self.change(raw::remove_target(self.record.controls, phase, position))
    }

    fn change(&mut self, changed: HostChangeAnswer) -> Result<(), Refusal> {
        self.record.controls = changed.controls;
        Refusal::unless(changed.answer, ())
    }

    /// The record, as it is lent to a call.
    pub fn record(&self) -> &HostTransaction {
        &self.record
    }

    pub(crate) fn data_records(&self) -> &[DataEntry] {
        used(&self.entries, self.record.entries)
    }

    pub(crate) fn journal(&self) -> &[JournalEntry] {
        &self.journal
    }
}

fn grow<T: Clone + Default>(list: &mut Vec<T>, used: u64, more: usize) {
    let Some(used) = usize::try_from(used)
        .ok()
        .filter(|used| *used <= list.len())
    else {
        return;
    };
    if list.len() - used < more {
        list.resize(used + more, T::default());
    }
}

/// The entries in use; a record can count more than there are.
fn used<T>(list: &[T], count: u64) -> &[T] {
    &list[..list.len().min(usize::try_from(count).unwrap_or(usize::MAX))]
}
