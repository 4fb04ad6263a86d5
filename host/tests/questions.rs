//! Questions to the controls, and additions to them.

use tivembo::{
    BodyProcessor, HostControls, HostTransaction, Mode, Place, Refusal, Transaction, MOST_RANGES,
    MOST_TARGETS,
};

fn holding(controls: HostControls) -> Transaction {
    let record = HostTransaction {
        controls,
        ..HostTransaction::default()
    };
    Transaction::from_record(record, Vec::new(), Vec::new())
}

#[test]
fn nothing_is_set() {
    let transaction = Transaction::new();
    let controls = transaction.controls();
    for mode in [Mode::On, Mode::DetectionOnly, Mode::Off] {
        assert_eq!(controls.engine_mode(mode), Ok(mode));
    }
    assert_eq!(controls.is_rule_removed(Some(0)), Ok(false));
    assert_eq!(controls.removed_targets(), Ok(Vec::new()));
    assert_eq!(controls.request_body_access(), Ok(true));
    assert_eq!(controls.request_body_processor(), Ok(None));
    assert_eq!(controls.set_mode(), None);
    assert_eq!(controls.set_body_access(), None);
    assert_eq!(controls.set_body_processor(), None);
    assert_eq!(controls.ranges().count(), 0);
}

#[test]
fn everything_is_set() {
    let transaction = holding(HostControls {
        mode: 2,
        access: 2,
        processor: 4,
        ..HostControls::default()
    });
    let controls = transaction.controls();
    assert_eq!(controls.engine_mode(Mode::Off), Ok(Mode::DetectionOnly));
    assert_eq!(controls.set_mode(), Some(Mode::DetectionOnly));
    assert_eq!(controls.request_body_access(), Ok(false));
    assert_eq!(controls.set_body_access(), Some(false));
    let xml = Some(BodyProcessor::Xml);
    assert_eq!(controls.request_body_processor(), Ok(xml));
    assert_eq!(controls.set_body_processor(), xml);
}

#[test]
fn ranges_are_added_up_to_their_limit() {
    let mut transaction = Transaction::new();
    assert_eq!(transaction.remove_range(5, 4), Err(Refusal::BadRecord));
    for id in 0..MOST_RANGES as u64 {
        transaction.remove_range(10 * id, 10 * id + 1).unwrap();
    }
    let before = *transaction.record();
    assert_eq!(transaction.remove_range(4, 4), Err(Refusal::TooManyRanges));
    assert_eq!(transaction.remove_range(5, 4), Err(Refusal::BadRecord));
    assert_eq!(*transaction.record(), before);
    let controls = transaction.controls();
    assert_eq!(controls.ranges().nth(3), Some((30, 31)));
    let removed = [9, 10, 11, 12].map(|id| controls.is_rule_removed(Some(id)).unwrap());
    assert_eq!(removed, [false, true, true, false]);
    assert_eq!(controls.is_rule_removed(None), Ok(false));
}

#[test]
fn targets_are_added_up_to_their_limit() {
    let mut transaction = Transaction::new();
    let place = |position| Place { phase: 2, position };
    for position in 0..MOST_TARGETS as u64 {
        transaction.remove_target(place(position)).unwrap();
    }
    let before = *transaction.record();
    let more = transaction.remove_target(place(99));
    assert_eq!(more, Err(Refusal::TooManyTargets));
    assert_eq!(*transaction.record(), before);
    let targets = transaction.controls().removed_targets().unwrap();
    assert!(targets.into_iter().eq((0..MOST_TARGETS as u64).map(place)));
    assert_eq!(transaction.controls().target(64), Ok(None));
}

/// Counts that nothing can hold are refused by every question and addition, and so are numbers that are none. Ranges that are
/// not merged are in tests/ranges.rs.
#[test]
fn wrong_records_are_refused() {
    let too_many = HostControls {
        ranges: 257,
        ..HostControls::default()
    };
    let far_too_many = HostControls {
        targets: u64::MAX,
        ..HostControls::default()
    };
    let unknown = HostControls {
        processor: 5,
        ..HostControls::default()
    };
    for (controls, refusal) in [
        (too_many, Refusal::Miscounted),
        (far_too_many, Refusal::Miscounted),
        (unknown, Refusal::BadRecord),
    ] {
        let mut transaction = holding(controls);
        let controls = transaction.controls();
        assert_eq!(controls.engine_mode(Mode::On), Err(refusal));
        assert_eq!(controls.is_rule_removed(Some(1)), Err(refusal));
        assert_eq!(controls.removed_targets(), Err(refusal));
        assert_eq!(controls.target(0), Err(refusal));
        assert_eq!(controls.request_body_access(), Err(refusal));
        assert_eq!(controls.request_body_processor(), Err(refusal));
        assert_eq!(transaction.remove_range(1, 2), Err(refusal));
        let place = Place {
            phase: 1,
            position: 0,
        };
        assert_eq!(transaction.remove_target(place), Err(refusal));
    }
}
