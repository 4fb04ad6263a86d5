//! The calls on plain numbers, with all of 01's freedom: any numbers may be lent, and a call that 01 turns away says so.
//!
//! Everything here is safe, since the proved calls demand nothing of what they are lent. [`Transaction`](crate::Transaction)
//! is the comfortable way; this one is for tests, and for hosts that keep the records themselves.

use crate::exported;
use crate::records::{Answer, CallSettings, HostTransaction, Marker};

pub use crate::exported::{
    engine_mode, is_rule_removed, marker_position, read_directive, remove_range, remove_target,
    request_body_access, request_body_processor, target_at, target_count,
};
pub use crate::records::ReadRecord;
pub use crate::words::{outcome_bytes, words, words_mut, Words};

/// What a phase call reads: 5 numbers a rule and 6 an action, in the order of [`Rule`](crate::Rule) and
/// [`Action`](crate::Action). Numbers after the last whole record are not looked at.
#[derive(Debug, Clone, Copy, Default)]
pub struct Lent<'a> {
    /// The phase, the rule set's mode and the default status, each as a number.
    pub call: CallSettings,
    /// The rules, 5 numbers each.
    pub rules: &'a [u64],
    /// The actions, 6 numbers each.
    pub actions: &'a [u64],
    /// The markers.
    pub markers: &'a [Marker],
    /// The text that actions and markers point into.
    pub text: &'a [u8],
    /// The outcome of each rule: 0 missed, 1 matched without a variable, 2 with one, 3 rule error.
    pub outcomes: &'a [u8],
}

/// What a phase call writes: 4 numbers a data entry and 2 a journal entry. What is not written stays as it was.
#[derive(Debug, Default)]
pub struct Lists<'a> {
    /// The matched ids.
    pub ids: &'a mut [u64],
    /// The data entries, 4 numbers each.
    pub entries: &'a mut [u64],
    /// The journal, 2 numbers each.
    pub journal: &'a mut [u64],
}

/// One phase call.
///
/// ```
/// use tivembo::raw::{run_phase, Lent, Lists};
/// use tivembo::{CallSettings, HostTransaction};
///
/// // C2 of 01: rule 10 has the actions id 10 and deny, and matched with a variable.
/// let lent = Lent {
///     call: CallSettings { phase: 2, mode: 0, default_status: 403 },
///     rules: &[1, 10, 0, 0, 2],
///     actions: &[11, 10, 0, 0, 0, 0, 1, 0, 0, 0, 0, 0],
///     outcomes: &[2],
///     ..Lent::default()
/// };
/// let (mut ids, mut entries, mut journal) = ([0; 1], [0; 4], [0; 2]);
/// let mut lists = Lists { ids: &mut ids, entries: &mut entries, journal: &mut journal };
/// let mut transaction = HostTransaction::default();
/// let answer = run_phase(&mut transaction, &lent, &mut lists);
/// assert_eq!((answer.answer, answer.visits), (0, 1));
/// assert_eq!(transaction.intervention.status, 403);
/// assert_eq!((ids, entries, journal), ([10], [1, 10, 2, 0], [0, 1]));
///
/// // Any numbers may be lent.
/// let wrong = Lent { call: CallSettings { phase: 6, ..lent.call }, ..lent };
/// assert_eq!(run_phase(&mut transaction, &wrong, &mut Lists::default()).answer, 1);
/// ```
pub fn run_phase(
    transaction: &mut HostTransaction,
    lent: &Lent<'_>,
    lists: &mut Lists<'_>,
) -> Answer {
    exported::run_phase(
        transaction,
        lent.call,
        lent.rules,
        lent.actions,
        lent.markers,
        lent.text,
        lent.outcomes,
        lists.ids,
        lists.entries,
        lists.journal,
    )
}
