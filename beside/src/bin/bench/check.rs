//! All sides give the same before they are timed.

use beside::case::Case;
use beside::found::differing;
use beside::ours::Ours;
use oracle::{Missed, Run, Timed};

use crate::gateway::{Gateway, Results};

/// Compares everything that a case's only call gives with the Rust's, and then what each timed side gives with that.
pub fn check(case: &Case) {
    let call = &case.calls[0];
    let given = case.written("checked");
    let mut run = Run::new(given.mode, given.block_status, &given.entry);
    let found = run.call(&given.calls[0]);
    let (ours, faults) = Ours::new(case).call(call, found.ranges != given.entry.ranges);
    let differing = differing(&found, &ours);
    assert!(differing.is_empty(), "the sides differ in {differing:?}");
    assert!(faults.is_empty(), "wrong with our side: {faults:?}");
    // No rule of these calls is removed, so the Rust evaluates all that the journal has.
    assert_eq!(found.visits, ours.visits);

    let text = |id: &u64| id.to_string();
    let data = found.data.iter().map(|entry| entry.0.as_ref().map(text));
    let matched = (found.ids.iter().map(text).collect(), data.collect());
    for missed in [Missed::WithVariable, Missed::Bare] {
        assert_eq!(Timed::new(&given, missed).matched(), matched);
    }

    let expected = Results {
        visits: found
            .visits
            .iter()
            .map(|(index, it)| (*index, it.number()))
            .collect(),
        ids: found.ids,
        data: found.data,
    };
    let mut gateway = Gateway::new(case);
    for _ in 0..2 {
        assert_eq!(gateway.results(), expected, "a call made again differs");
    }
}
