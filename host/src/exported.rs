//! Written by tools/declarations from the Rattle sources in crates/; not to be changed by hand.
//!
//! The calls of the static library, and a safe function over each. A lent list goes over as a pointer to its first
//! entry and then its length. All `unsafe` code of the crate is in this file and in src/words.rs.

#![allow(unsafe_code)]

use crate::records::{
    Action, Answer, CallSettings, DataEntry, HostChangeAnswer, HostControls, HostIntervention,
    HostMarker, HostMetadata, HostNumber, HostPlace, HostQueryAnswer, HostTarget, HostTransaction,
    JournalEntry, Marker, Part, ReadRecord, Report, Rule, UnsupportedAt,
};
use crate::words::Words;

extern "C" {
    fn tivembo_read_directive(
        name: *const u8,
        name_len: usize,
        value: *const u8,
        value_len: usize,
        starts: *mut u64,
        starts_len: usize,
        ends: *mut u64,
        ends_len: usize,
    ) -> ReadRecord;
    fn tivembo_marker_position(
        markers: *const Marker,
        markers_len: usize,
        rules: u64,
        text: *const u8,
        text_len: usize,
        name: *const u8,
        name_len: usize,
    ) -> HostMarker;
    fn tivembo_run_phase(
        t: *mut HostTransaction,
        call: CallSettings,
        rules: *const u64,
        rules_len: usize,
        actions: *const u64,
        actions_len: usize,
        markers: *const Marker,
        markers_len: usize,
        text: *const u8,
        text_len: usize,
        outcomes: *const u8,
        outcomes_len: usize,
        ids: *mut u64,
        ids_len: usize,
        entries: *mut u64,
        entries_len: usize,
        journal: *mut u64,
        journal_len: usize,
    ) -> Answer;
    fn tivembo_target_count(c: HostControls) -> HostQueryAnswer;
    fn tivembo_target_at(c: HostControls, at: u64) -> HostTarget;
    fn tivembo_engine_mode(c: HostControls, ruleset_mode: u64) -> HostQueryAnswer;
    fn tivembo_is_rule_removed(c: HostControls, id: HostNumber) -> HostQueryAnswer;
    fn tivembo_request_body_access(c: HostControls) -> HostQueryAnswer;
    fn tivembo_request_body_processor(c: HostControls) -> HostQueryAnswer;
    fn tivembo_remove_range(c: HostControls, start: u64, end: u64) -> HostChangeAnswer;
    fn tivembo_remove_target(c: HostControls, phase: u64, position: u64) -> HostChangeAnswer;
}

/// Reads a directive. The ranges of a ruleRemoveById go to the start of the two lists.
pub fn read_directive(
    name: &[u8],
    value: &[u8],
    starts: &mut [u64],
    ends: &mut [u64],
) -> ReadRecord {
    // SAFETY: the contract has no `requires`; what is lent stays borrowed for the whole call; what is written is
    // borrowed by nobody else.
    unsafe {
        tivembo_read_directive(
            name.as_ptr(),
            name.len(),
            value.as_ptr(),
            value.len(),
            starts.as_mut_ptr(),
            starts.len(),
            ends.as_mut_ptr(),
            ends.len(),
        )
    }
}

/// Where the latest marker of a name leads, asked of a phase's marker records. `rules` is how many rules the phase has.
pub fn marker_position(markers: &[Marker], rules: u64, text: &[u8], name: &[u8]) -> HostMarker {
    // SAFETY: the contract has no `requires`; what is lent stays borrowed for the whole call.
    unsafe {
        tivembo_marker_position(
            markers.as_ptr(),
            markers.len(),
            rules,
            text.as_ptr(),
            text.len(),
            name.as_ptr(),
            name.len(),
        )
    }
}

/// The phase call, on a transaction and marker records that the host lends.
#[allow(clippy::too_many_arguments)]
pub fn run_phase(
    t: &mut HostTransaction,
    call: CallSettings,
    rules: &[u64],
    actions: &[u64],
    markers: &[Marker],
    text: &[u8],
    outcomes: &[u8],
    ids: &mut [u64],
    entries: &mut [u64],
    journal: &mut [u64],
) -> Answer {
    // SAFETY: the contract has no `requires`; what is lent stays borrowed for the whole call; what is written is
    // borrowed by nobody else.
    unsafe {
        tivembo_run_phase(
            t,
            call,
            rules.as_ptr(),
            rules.len(),
            actions.as_ptr(),
            actions.len(),
            markers.as_ptr(),
            markers.len(),
            text.as_ptr(),
            text.len(),
            outcomes.as_ptr(),
            outcomes.len(),
            ids.as_mut_ptr(),
            ids.len(),
            entries.as_mut_ptr(),
            entries.len(),
            journal.as_mut_ptr(),
            journal.len(),
        )
    }
}

/// How many targets are removed.
pub fn target_count(c: HostControls) -> HostQueryAnswer {
    // SAFETY: the contract has no `requires`.
    unsafe { tivembo_target_count(c) }
}

/// The target at a place of the list, counted from 0, or none after its end.
pub fn target_at(c: HostControls, at: u64) -> HostTarget {
    // SAFETY: the contract has no `requires`.
    unsafe { tivembo_target_at(c, at) }
}

/// The mode set last, else the rule set's: 0, 1 or 2.
pub fn engine_mode(c: HostControls, ruleset_mode: u64) -> HostQueryAnswer {
    // SAFETY: the contract has no `requires`.
    unsafe { tivembo_engine_mode(c, ruleset_mode) }
}

/// Whether a rule of this id, or of none, is removed: 1 or 0.
pub fn is_rule_removed(c: HostControls, id: HostNumber) -> HostQueryAnswer {
    // SAFETY: the contract has no `requires`.
    unsafe { tivembo_is_rule_removed(c, id) }
}

/// Whether the request body is read: 0 On, 1 Off.
pub fn request_body_access(c: HostControls) -> HostQueryAnswer {
    // SAFETY: the contract has no `requires`.
    unsafe { tivembo_request_body_access(c) }
}

/// The body processor: 0 where none is set, else one more than its number.
pub fn request_body_processor(c: HostControls) -> HostQueryAnswer {
    // SAFETY: the contract has no `requires`.
    unsafe { tivembo_request_body_processor(c) }
}

/// Adds a range of removed ids, merged with those held, which may then be fewer. After 3 and an unknown number: 5 where
/// the start is above the end, 8 where 256 are held, also where it would merge.
pub fn remove_range(c: HostControls, start: u64, end: u64) -> HostChangeAnswer {
    // SAFETY: the contract has no `requires`.
    unsafe { tivembo_remove_range(c, start, end) }
}

/// Adds the place of a removed target at the end. After 3 and an unknown number: 9 where 64 are held.
pub fn remove_target(c: HostControls, phase: u64, position: u64) -> HostChangeAnswer {
    // SAFETY: the contract has no `requires`.
    unsafe { tivembo_remove_target(c, phase, position) }
}

// SAFETY: each is `#[repr(C)]` and made of `u64` alone.
unsafe impl Words for Rule {}
unsafe impl Words for Part {}
unsafe impl Words for Action {}
unsafe impl Words for Marker {}
unsafe impl Words for DataEntry {}
unsafe impl Words for JournalEntry {}
unsafe impl Words for ReadRecord {}
unsafe impl Words for HostMarker {}
unsafe impl Words for HostControls {}
unsafe impl Words for HostPlace {}
unsafe impl Words for HostNumber {}
unsafe impl Words for HostMetadata {}
unsafe impl Words for HostIntervention {}
unsafe impl Words for HostTransaction {}
unsafe impl Words for CallSettings {}
unsafe impl Words for UnsupportedAt {}
unsafe impl Words for Report {}
unsafe impl Words for Answer {}
unsafe impl Words for HostQueryAnswer {}
unsafe impl Words for HostTarget {}
unsafe impl Words for HostChangeAnswer {}
