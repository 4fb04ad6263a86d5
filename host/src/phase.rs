//! What a phase call gives.

use crate::intervention::Intervention;
use crate::records::{Answer as HostAnswer, DataEntry, HostTransaction, JournalEntry, Report};
use crate::transaction::Transaction;
use crate::unsupported::{UnsupportedDirective, UnsupportedReason};
use crate::values::{Data, Place, Verdict};

/// How a phase ended that was not refused.
#[derive(Debug, Clone, Copy, PartialEq, Eq, Hash)]
pub enum Answer {
    /// 0: the phase was carried through.
    CarriedThrough,
    /// 10: the visited rule with this index was not removed and had the outcome [`Error`](crate::Outcome::Error). All
    /// units that were closed before it stand.
    RuleError(u64),
}

/// What a transaction counted before a call.
#[derive(Debug, Clone, Copy)]
pub(crate) struct Before {
    ids: usize,
    entries: usize,
    targets: usize,
    allowed: bool,
    stopped: bool,
}

impl Before {
    pub(crate) fn of(record: &HostTransaction) -> Self {
        let count = |number| usize::try_from(number).unwrap_or(usize::MAX);
        Self {
            ids: count(record.ids),
            entries: count(record.entries),
            targets: count(record.controls.targets),
            allowed: record.allowed == 1,
            stopped: record.intervention.present == 1,
        }
    }
}

/// What one call gave: the journal, and what the call added to its transaction. Ranges are merged with those held before, so that
/// only [`Controls::ranges`](crate::Controls::ranges) has them.
#[derive(Debug, Clone, Copy)]
pub struct Phase<'t> {
    transaction: &'t Transaction,
    answer: HostAnswer,
    before: Before,
}

impl<'t> Phase<'t> {
    pub(crate) fn new(transaction: &'t Transaction, answer: HostAnswer, before: Before) -> Self {
        Self {
            transaction,
            answer,
            before,
        }
    }

    /// How it ended.
    pub fn answer(&self) -> Answer {
        match self.answer.answer {
            0 => Answer::CarriedThrough,
            _ => Answer::RuleError(self.answer.error),
        }
    }

    /// The transaction after the call.
    pub fn transaction(&self) -> &'t Transaction {
        self.transaction
    }

    /// The journal: the index of each visited rule, in order, and the verdict. A rule that is not in it was passed.
    pub fn visits(&self) -> impl Iterator<Item = (usize, Verdict)> + 't {
        let visit = |entry: &JournalEntry| {
            let verdict = Verdict::from_number(entry.verdict);
            let verdict = verdict.expect("the contract has no other verdict");
            (entry.index as usize, verdict)
        };
        let entries = self.transaction.journal().iter();
        entries.take(self.answer.visits as usize).map(visit)
    }

    /// How many visits found each verdict, and the first unsupported directive as numbers:
    /// [`unsupported`](Self::unsupported) has it by name.
    ///
    /// ```
    /// use tivembo::{Act, Mode, Outcome, RuleSet, Transaction};
    ///
    /// let mut builder = RuleSet::builder();
    /// builder.rule(Some(10), false, &[Act::Id(10)]).rule(Some(11), false, &[Act::Id(11)]);
    /// let rules = builder.build()?;
    /// let mut transaction = Transaction::new();
    /// let outcomes = [Outcome::Missed, Outcome::Matched];
    /// let phase = transaction.run_phase(&rules, 2, Mode::On, 403, &outcomes)?;
    /// let report = phase.report();
    /// assert_eq!((report.missed, report.matched, report.removed), (1, 1, 0));
    /// # Ok::<(), Box<dyn std::error::Error>>(())
    /// ```
    pub fn report(&self) -> Report {
        self.answer.report
    }

    /// The first unsupported directive of the units that this call closed, or none. The phase passed it over, and any
    /// further ones too: they changed nothing.
    ///
    /// First goes by units, then by members, then by actions. Directives of rules that missed or are removed, and of a
    /// chain that did not close, do not count; those of a unit that stops or allows the request do.
    /// [`Records::unsupported_in`](crate::Records::unsupported_in) has the texts.
    ///
    /// ```
    /// use tivembo::{Act, Mode, Outcome, RuleSet, Transaction};
    ///
    /// let mut builder = RuleSet::builder();
    /// builder.rule(Some(20), true, &[Act::Id(20)]);
    /// builder.rule(Some(21), false, &[Act::Id(21), Act::Ctl(b"ruleRemoveById", b"942100,abc")]);
    /// let rules = builder.build()?;
    /// let mut transaction = Transaction::new();
    /// let phase = transaction.run_phase(&rules, 2, Mode::On, 403, &[Outcome::Matched; 2])?;
    /// let first = phase.unsupported().expect("the list has a bad part");
    /// assert_eq!((first.rule, first.reason.name()), (1, "id list"));
    /// # Ok::<(), Box<dyn std::error::Error>>(())
    /// ```
    pub fn unsupported(&self) -> Option<UnsupportedDirective> {
        let found = self.answer.report.unsupported;
        (found.reason != 0).then(|| {
            let reason = UnsupportedReason::from_number(found.reason);
            UnsupportedDirective {
                rule: found.index as usize,
                reason: reason.expect("the contract has no other reason"),
            }
        })
    }

    /// The matched ids that this call added.
    pub fn ids(&self) -> &'t [u64] {
        after(self.transaction.matched_ids(), self.before.ids)
    }

    /// The data entries that this call added.
    pub fn data(&self) -> impl Iterator<Item = Data> + 't {
        let entries = self.transaction.data_records();
        after(entries, self.before.entries).iter().map(Data::from)
    }

    /// The places of the removed targets that this call added.
    pub fn targets(&self) -> impl Iterator<Item = Place> + 't {
        let controls = &self.transaction.record().controls;
        let places = controls.phases.iter().zip(&controls.positions);
        let held = places.take(controls.targets as usize);
        let place = |(&phase, &position): (&u64, &u64)| Place { phase, position };
        held.skip(self.before.targets).map(place)
    }

    /// Whether this call allowed the request.
    pub fn allows(&self) -> bool {
        self.transaction.is_allowed() && !self.before.allowed
    }

    /// What stops the request, where this call did it.
    pub fn intervention(&self) -> Option<Intervention> {
        let found = self.transaction.intervention();
        found.filter(|_| !self.before.stopped)
    }
}

impl From<&DataEntry> for Data {
    fn from(record: &DataEntry) -> Self {
        Self {
            id: (record.present == 1).then_some(record.id),
            phase: record.phase,
            index: record.index,
        }
    }
}

/// What a call added to a list.
fn after<T>(list: &[T], before: usize) -> &[T] {
    list.get(before..).unwrap_or(&[])
}
