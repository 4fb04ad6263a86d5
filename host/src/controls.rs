//! What directives have set, and questions to it.

use crate::exported;
use crate::ranges::RangeFault;
use crate::records::{HostControls, HostQueryAnswer};
use crate::values::{BodyProcessor, Mode, Place};
use crate::Refusal;

/// The controls of a transaction. The first six functions are the proved questions; they are refused only where a record
/// was given that counts more than 256 ranges or 64 targets, or has ranges that are not merged (3), or holds an unknown number
/// (5). The others read the record as it is.
#[derive(Debug, Clone, Copy)]
pub struct Controls<'a>(pub(crate) &'a HostControls);

impl<'a> Controls<'a> {
    /// The mode in force: the one that a directive set last, else the rule set's.
    ///
    /// ```
    /// use tivembo::{Mode, Transaction};
    /// let transaction = Transaction::new();
    /// assert_eq!(transaction.controls().engine_mode(Mode::On), Ok(Mode::On));
    /// ```
    pub fn engine_mode(&self, ruleset_mode: Mode) -> Result<Mode, Refusal> {
        let number = value(exported::engine_mode(*self.0, ruleset_mode.number()))?;
        Ok(Mode::from_number(number).expect("the contract has no other mode"))
    }

    /// Whether a rule with this id is removed. A rule without an id never is.
    ///
    /// ```
    /// use tivembo::Transaction;
    /// let mut transaction = Transaction::new();
    /// transaction.remove_range(942_100, 942_999)?;
    /// assert!(transaction.controls().is_rule_removed(Some(942_999))?);
    /// assert!(!transaction.controls().is_rule_removed(Some(943_000))?);
    /// assert!(!transaction.controls().is_rule_removed(None)?);
    /// # Ok::<(), tivembo::Refusal>(())
    /// ```
    pub fn is_rule_removed(&self, id: Option<u64>) -> Result<bool, Refusal> {
        Ok(value(exported::is_rule_removed(*self.0, id.into()))? == 1)
    }

    /// The places of the removed targets, in order. The host drops those whose variable it does not know.
    pub fn removed_targets(&self) -> Result<Vec<Place>, Refusal> {
        let count = value(exported::target_count(*self.0))?;
        (0..count)
            .filter_map(|at| self.target(at).transpose())
            .collect()
    }

    /// The removed target at a place of the list.
    pub fn target(&self, at: u64) -> Result<Option<Place>, Refusal> {
        let found = exported::target_at(*self.0, at);
        Refusal::unless(found.answer, found.target.get())
    }

    /// Whether the request body is read: on until a directive says otherwise.
    pub fn request_body_access(&self) -> Result<bool, Refusal> {
        Ok(value(exported::request_body_access(*self.0))? == 0)
    }

    /// The body processor that a directive has set.
    pub fn request_body_processor(&self) -> Result<Option<BodyProcessor>, Refusal> {
        let number = value(exported::request_body_processor(*self.0))?;
        Ok(number.checked_sub(1).and_then(BodyProcessor::from_number))
    }

    /// The mode that a directive has set.
    pub fn set_mode(&self) -> Option<Mode> {
        self.0.mode.checked_sub(1).and_then(Mode::from_number)
    }

    /// Body access, where a directive has set it.
    pub fn set_body_access(&self) -> Option<bool> {
        match self.0.access {
            1 => Some(true),
            2 => Some(false),
            _ => None,
        }
    }

    /// The body processor, where a directive has set it.
    pub fn set_body_processor(&self) -> Option<BodyProcessor> {
        let number = self.0.processor.checked_sub(1)?;
        BodyProcessor::from_number(number)
    }

    /// The removed ranges, merged: sorted by start, and no two of them overlap or touch. Both ends of each are removed.
    ///
    /// ```
    /// use tivembo::Transaction;
    /// let mut transaction = Transaction::new();
    /// for (start, end) in [(8, 9), (1, 1), (5, 7)] {
    ///     transaction.remove_range(start, end)?;
    /// }
    /// assert_eq!(transaction.controls().ranges().collect::<Vec<_>>(), [(1, 1), (5, 9)]);
    /// # Ok::<(), tivembo::Refusal>(())
    /// ```
    pub fn ranges(&self) -> impl Iterator<Item = (u64, u64)> + 'a {
        let ends = self.0.ends.iter().copied();
        let ranges = self.0.starts.iter().copied().zip(ends);
        ranges.take(self.0.ranges as usize)
    }

    /// Where the ranges are not merged, so that calls and questions are refused with 3. No call leaves them so; a record that the
    /// host made can have them.
    ///
    /// ```
    /// use tivembo::{HostTransaction, Transaction};
    /// let mut record = HostTransaction::default();
    /// record.controls.ranges = 2;
    /// record.controls.starts[..2].copy_from_slice(&[1, 3]);
    /// record.controls.ends[..2].copy_from_slice(&[2, 4]);
    /// let transaction = Transaction::from_record(record, Vec::new(), Vec::new());
    /// let fault = transaction.controls().range_fault().expect("3 comes directly after 2");
    /// assert_eq!(fault.to_string(), "ranges 1-2 and 3-4 touch: merged they are 1-4");
    /// ```
    pub fn range_fault(&self) -> Option<RangeFault> {
        RangeFault::first(self.ranges())
    }
}

fn value(asked: HostQueryAnswer) -> Result<u64, Refusal> {
    Refusal::unless(asked.answer, asked.value)
}
