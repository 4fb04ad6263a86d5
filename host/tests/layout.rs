//! Written by tools/declarations from the Rattle sources in crates/; not to be changed by hand.
//!
//! The records have the sizes and offsets that follow from the order of the fields in the Rattle sources. That the
//! library itself has them is shown by tests/through_calls.rs.

use std::mem::{align_of, offset_of, size_of};

use tivembo::records::*;

/// The size, the alignment and the offsets of a record, in bytes.
macro_rules! layout {
    ($type:ty, $size:expr, $align:expr, $($field:ident $at:expr),*) => {
        assert_eq!((size_of::<$type>(), align_of::<$type>()), ($size, $align));
        $(assert_eq!(offset_of!($type, $field), $at, stringify!($field));)*
    };
}

#[test]
fn rule() {
    layout!(Rule, 40, 8, present 0, id 8, link 16, first 24, count 32);
}

#[test]
fn part() {
    layout!(Part, 16, 8, start 0, len 8);
}

#[test]
fn action() {
    layout!(Action, 48, 8, kind 0, number 8, text 16, value 32);
}

#[test]
fn marker() {
    layout!(Marker, 24, 8, name 0, position 16);
}

#[test]
fn data_entry() {
    layout!(DataEntry, 32, 8, present 0, id 8, phase 16, index 24);
}

#[test]
fn journal_entry() {
    layout!(JournalEntry, 16, 8, index 0, verdict 8);
}

#[test]
fn read_record() {
    layout!(ReadRecord, 24, 8, answer 0, form 8, value 16);
}

#[test]
fn host_marker() {
    layout!(HostMarker, 24, 8, answer 0, present 8, position 16);
}

#[test]
fn host_controls() {
    layout!(HostControls, 5160, 8, mode 0, access 8, processor 16, ranges 24, targets 32, starts 40, ends 2088, phases 4136, positions 4648);
}

#[test]
fn host_place() {
    layout!(HostPlace, 24, 8, present 0, phase 8, position 16);
}

#[test]
fn host_number() {
    layout!(HostNumber, 16, 8, present 0, value 8);
}

#[test]
fn host_metadata() {
    layout!(HostMetadata, 160, 8, id 0, msg 16, logdata 40, rev 64, ver 88, severity 112, maturity 128, accuracy 144);
}

#[test]
fn host_intervention() {
    layout!(HostIntervention, 272, 8, present 0, status 8, url 16, log 40, closing 64, starter 80, phase 96, drop 104, metadata 112);
}

#[test]
fn host_transaction() {
    layout!(HostTransaction, 5456, 8, controls 0, allowed 5160, intervention 5168, ids 5440, entries 5448);
}

#[test]
fn call_settings() {
    layout!(CallSettings, 24, 8, phase 0, mode 8, default_status 16);
}

#[test]
fn unsupported_at() {
    layout!(UnsupportedAt, 16, 8, index 0, reason 8);
}

#[test]
fn report() {
    layout!(Report, 48, 8, missed 0, matched 8, removed 16, errors 24, unsupported 32);
}

#[test]
fn answer() {
    layout!(Answer, 72, 8, answer 0, error 8, visits 16, report 24);
}

#[test]
fn host_query_answer() {
    layout!(HostQueryAnswer, 16, 8, answer 0, value 8);
}

#[test]
fn host_target() {
    layout!(HostTarget, 32, 8, answer 0, target 8);
}

#[test]
fn host_change_answer() {
    layout!(HostChangeAnswer, 5168, 8, answer 0, controls 8);
}
