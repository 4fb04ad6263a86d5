//! Wrong phase calls, each of which the program must find.

use tivembo::raw::{run_phase, Lent, Lists};
use tivembo::{HostAnswer, HostControls, HostTransaction, Report};

use crate::given::PhaseCall;

pub const WRONG: [(&str, PhaseCall); 10] = [
    ("eight-and-nine", eight_and_nine),
    ("room-before-bytes", room_before_bytes),
    ("counts-a-visit", counts_a_visit),
    ("writes-an-id", writes_an_id),
    ("writes-the-journal", writes_the_journal),
    ("forgets-a-range", forgets_a_range),
    ("pair-before-room", pair_before_room),
    ("lets-touching-in", lets_touching_in),
    ("lets-one-around", lets_one_around),
    ("sorts-what-it-refuses", sorts_what_it_refuses),
];

fn is_refusal(answer: HostAnswer) -> bool {
    (1..=9).contains(&answer.answer)
}

/// Answers 9 for ranges and 8 for targets.
fn eight_and_nine(t: &mut HostTransaction, lent: &Lent<'_>, lists: &mut Lists<'_>) -> HostAnswer {
    let found = run_phase(t, lent, lists);
    let answer = match found.answer {
        8 => 9,
        9 => 8,
        other => other,
    };
    HostAnswer { answer, ..found }
}

/// Looks for room before it looks at the text: 7 where 6 comes first.
fn room_before_bytes(
    t: &mut HostTransaction,
    lent: &Lent<'_>,
    lists: &mut Lists<'_>,
) -> HostAnswer {
    let found = run_phase(t, lent, lists);
    let rules = lent.rules.len() / 5;
    let answer = match found.answer {
        6 if lists.journal.len() / 2 < rules => 7,
        other => other,
    };
    HostAnswer { answer, ..found }
}

fn counts_a_visit(t: &mut HostTransaction, lent: &Lent<'_>, lists: &mut Lists<'_>) -> HostAnswer {
    let found = run_phase(t, lent, lists);
    let visits = found.visits + u64::from(is_refusal(found));
    HostAnswer { visits, ..found }
}

fn writes_an_id(t: &mut HostTransaction, lent: &Lent<'_>, lists: &mut Lists<'_>) -> HostAnswer {
    let found = run_phase(t, lent, lists);
    if let (true, Some(last)) = (is_refusal(found), lists.ids.last_mut()) {
        *last = !*last;
    }
    found
}

/// Writes the first journal entry before it looks at the outcomes.
fn writes_the_journal(
    t: &mut HostTransaction,
    lent: &Lent<'_>,
    lists: &mut Lists<'_>,
) -> HostAnswer {
    let found = run_phase(t, lent, lists);
    if let (4, [index, ..]) = (found.answer, &mut *lists.journal) {
        *index = 0;
    }
    found
}

/// Takes the last of too many ranges away.
fn forgets_a_range(t: &mut HostTransaction, lent: &Lent<'_>, lists: &mut Lists<'_>) -> HostAnswer {
    let found = run_phase(t, lent, lists);
    if found.answer == 8 {
        t.controls.ends[255] = !t.controls.ends[255];
    }
    found
}

/// Looks for an unsupported directive before it looks for room: with 7 it tells what the phase would have told.
fn pair_before_room(t: &mut HostTransaction, lent: &Lent<'_>, lists: &mut Lists<'_>) -> HostAnswer {
    let found = run_phase(t, lent, lists);
    if found.answer != 7 {
        return found;
    }
    let (mut copy, rules) = (*t, lent.rules.len() / 5);
    let mut roomy = Lists {
        ids: &mut vec![0; t.ids as usize + rules],
        entries: &mut vec![0; 4 * (t.entries as usize + rules)],
        journal: &mut vec![0; 2 * rules],
    };
    let unsupported = run_phase(&mut copy, lent, &mut roomy).report.unsupported;
    let report = Report {
        unsupported,
        ..found.report
    };
    HostAnswer { report, ..found }
}

/// Makes the call with other ranges where it is refused with 3 for those that are held.
fn with_ranges(
    t: &mut HostTransaction,
    lent: &Lent<'_>,
    lists: &mut Lists<'_>,
    change: impl Fn(&mut HostControls),
) -> HostAnswer {
    let found = run_phase(t, lent, lists);
    if found.answer != 3 || t.controls.ranges > 256 {
        return found;
    }
    let mut changed = *t;
    change(&mut changed.controls);
    run_phase(&mut changed, lent, lists)
}

/// Takes ranges that touch, as if an id lay between them.
fn lets_touching_in(t: &mut HostTransaction, lent: &Lent<'_>, lists: &mut Lists<'_>) -> HostAnswer {
    with_ranges(t, lent, lists, |held| {
        for at in 1..held.ranges as usize {
            let touches = held.ends[at - 1].checked_add(1) == Some(held.starts[at]);
            if touches && held.ends[at - 1] > held.starts[at - 1] {
                held.ends[at - 1] -= 1;
            }
        }
    })
}

/// Takes a range after one that ends at the largest number, as if a sum had wrapped.
fn lets_one_around(t: &mut HostTransaction, lent: &Lent<'_>, lists: &mut Lists<'_>) -> HostAnswer {
    with_ranges(t, lent, lists, |held| {
        let last = held.ranges as usize;
        if last > 1 && held.ends[last - 2] == u64::MAX && held.starts[last - 1] > 0 {
            held.ranges -= 1;
        }
    })
}

/// Answers 3, and has the ranges in order then.
fn sorts_what_it_refuses(
    t: &mut HostTransaction,
    lent: &Lent<'_>,
    lists: &mut Lists<'_>,
) -> HostAnswer {
    let found = run_phase(t, lent, lists);
    if let (3, Some(held)) = (
        found.answer,
        t.controls.starts.get_mut(..t.controls.ranges as usize),
    ) {
        held.sort_unstable();
    }
    found
}
