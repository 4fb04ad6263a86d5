//! Wrong readers, to show that the comparison finds them. Each is made of the proved one: it alters what that answers,
//! or what that is given.

use tivembo::constants::reason;

use crate::compare::{ours, refused, Outcome};
use crate::question::Question;

/// A name, and the reader that has the fault.
pub type Fault = (&'static str, fn(&Question) -> Outcome);

pub const FAULTS: [Fault; 18] = [
    ("range-end-short", range_end_short),
    ("bad-part-dropped", bad_part_dropped),
    ("start-above-end-swapped", swapped),
    ("limit-excluded", limit_excluded),
    ("21-digits-refused", long_numbers_refused),
    ("largest-refused", largest_refused),
    ("plus-refused", plus_refused),
    ("blank-part-bad", blank_part_bad),
    ("written-before-it-fits", written_early),
    ("full-list-refused", full_refused),
    ("entry-after-cleared", entry_cleared),
    ("cut-at-last", cut_at_last),
    ("vertical-tab-no-blank", vertical_tab),
    ("1c-is-blank", separators_blank),
    ("high-byte-before-length", high_first),
    ("access-turned", access_turned),
    ("audit-unrecognised", audit_unrecognised),
    ("reason-with-refusal", reason_with_refusal),
];

/// What the proved reader does with another name or value.
fn with_texts(question: &Question, name: Vec<u8>, value: Vec<u8>) -> Outcome {
    let Question {
        starts,
        ends,
        damage,
        ..
    } = *question;
    ours(&Question {
        name,
        value,
        starts,
        ends,
        damage,
    })
}

fn with_value(question: &Question, value: Vec<u8>) -> Outcome {
    with_texts(question, question.name.clone(), value)
}

/// A list of ids that is taken for none.
fn no_id_list(question: &Question) -> Outcome {
    let mut outcome = Outcome::before(question);
    outcome.record.value = reason::ID_LIST;
    outcome
}

fn is_unsupported(outcome: &Outcome) -> bool {
    outcome.record.answer == 0 && outcome.record.form == 0
}

fn is_ranges(outcome: &Outcome) -> bool {
    outcome.record.answer == 0 && outcome.record.form == 2
}

/// Takes a value with this in it for unsupported, where it has ranges.
fn no_ranges_if(question: &Question, test: impl Fn(&[u8]) -> bool) -> Outcome {
    let outcome = ours(question);
    if is_ranges(&outcome) && test(&question.value) {
        return no_id_list(question);
    }
    outcome
}

fn range_end_short(question: &Question) -> Outcome {
    let mut outcome = ours(question);
    if is_ranges(&outcome) {
        let last = outcome.record.value as usize - 1;
        if outcome.starts.entries()[last] < outcome.ends.entries()[last] {
            outcome.ends.lent()[last] -= 1;
        }
    }
    outcome
}

/// Leaves out a part that makes the whole directive unsupported.
fn bad_part_dropped(question: &Question) -> Outcome {
    let outcome = ours(question);
    let parts: Vec<&[u8]> = question.value.split(|&b| b == b',').collect();
    if !is_unsupported(&outcome) || parts.len() > 50 {
        return outcome;
    }
    for left_out in 0..parts.len() {
        let mut kept = parts.clone();
        kept.remove(left_out);
        let without = with_value(question, kept.join(&b','));
        if is_ranges(&without) {
            return without;
        }
    }
    outcome
}

/// Takes 5-4 for 4-5.
fn swapped(question: &Question) -> Outcome {
    let outcome = ours(question);
    if !is_unsupported(&outcome) {
        return outcome;
    }
    let parts = question.value.split(|&b| b == b',').map(|part| {
        let mut sides: Vec<&[u8]> = part.split(|&b| b == b'-').collect();
        let number = |side: &[u8]| std::str::from_utf8(side).ok()?.trim().parse::<u64>().ok();
        if sides.len() == 2 && number(sides[0]) > number(sides[1]) && number(sides[1]).is_some() {
            sides.reverse();
        }
        sides.join(&b'-')
    });
    let value = parts.collect::<Vec<_>>().join(&b',');
    with_value(question, value)
}

fn limit_excluded(question: &Question) -> Outcome {
    if question.name.len() == 65_536 || question.value.len() == 65_536 {
        let mut outcome = Outcome::before(question);
        outcome.record = refused(2);
        return outcome;
    }
    ours(question)
}

fn long_numbers_refused(question: &Question) -> Outcome {
    no_ranges_if(question, |value| {
        value
            .split(|b| !b.is_ascii_digit())
            .any(|digits| digits.len() >= 21)
    })
}

fn largest_refused(question: &Question) -> Outcome {
    let largest = u64::MAX.to_string();
    no_ranges_if(question, |value| {
        value
            .split(|b| !b.is_ascii_digit())
            .any(|digits| digits.ends_with(largest.as_bytes()))
    })
}

fn plus_refused(question: &Question) -> Outcome {
    no_ranges_if(question, |value| value.contains(&b'+'))
}

fn blank_part_bad(question: &Question) -> Outcome {
    no_ranges_if(question, |value| {
        value.split(|&b| b == b',').any(<[u8]>::is_empty)
    })
}

/// Writes the first ranges into lists that are too short for all of them.
fn written_early(question: &Question) -> Outcome {
    let mut outcome = ours(question);
    let room = question.starts.min(question.ends);
    if outcome.record.answer == 7 && room > 0 {
        let (mut starts, mut ends) = (vec![0; 70_000], vec![0; 70_000]);
        tivembo::raw::read_directive(&question.name, &question.value, &mut starts, &mut ends);
        outcome.starts.lent()[..room].copy_from_slice(&starts[..room]);
        outcome.ends.lent()[..room].copy_from_slice(&ends[..room]);
    }
    outcome
}

/// Answers 7 where the ranges fill the shorter list exactly.
fn full_refused(question: &Question) -> Outcome {
    let outcome = ours(question);
    let room = question.starts.min(question.ends) as u64;
    if is_ranges(&outcome) && outcome.record.value == room {
        let mut outcome = Outcome::before(question);
        outcome.record = refused(7);
        return outcome;
    }
    outcome
}

/// Ends the list of starts with a 0.
fn entry_cleared(question: &Question) -> Outcome {
    let mut outcome = ours(question);
    let count = outcome.record.value as usize;
    if is_ranges(&outcome) && count < question.starts {
        outcome.starts.lent()[count] = 0;
    }
    outcome
}

fn cut_at_last(question: &Question) -> Outcome {
    let mut outcome = ours(question);
    if outcome.record.form == 3 {
        let last = question.value.iter().rposition(|&b| b == b';');
        outcome.record.value = last.expect("a target has a ';'") as u64;
    }
    outcome
}

/// The texts with some bytes replaced by another.
fn replaced(question: &Question, is_replaced: fn(u8) -> bool, by: u8) -> Outcome {
    let replace = |text: &[u8]| -> Vec<u8> {
        text.iter()
            .map(|&b| if is_replaced(b) { by } else { b })
            .collect()
    };
    with_texts(question, replace(&question.name), replace(&question.value))
}

/// Takes 0B for no blank, as `is_ascii_whitespace` does.
fn vertical_tab(question: &Question) -> Outcome {
    replaced(question, |b| b == 0x0B, 0x01)
}

/// Takes 1C to 1F for blanks.
fn separators_blank(question: &Question) -> Outcome {
    replaced(question, |b| (0x1C..=0x1F).contains(&b), b' ')
}

fn high_first(question: &Question) -> Outcome {
    let mut outcome = ours(question);
    let is_high = |text: &[u8]| !text.is_ascii();
    if outcome.record.answer == 2 && (is_high(&question.name) || is_high(&question.value)) {
        outcome.record.answer = 6;
    }
    outcome
}

fn access_turned(question: &Question) -> Outcome {
    let mut outcome = ours(question);
    if outcome.record.form == 4 {
        outcome.record.value = 1 - outcome.record.value;
    }
    outcome
}

/// Has no reason of their own for the audit directives.
fn audit_unrecognised(question: &Question) -> Outcome {
    let mut outcome = ours(question);
    if is_unsupported(&outcome) && outcome.record.value == reason::AUDIT {
        outcome.record.value = reason::UNRECOGNISED;
    }
    outcome
}

/// Tells a reason where nothing was read.
fn reason_with_refusal(question: &Question) -> Outcome {
    let mut outcome = ours(question);
    if outcome.record.answer != 0 {
        outcome.record.value = reason::UNRECOGNISED;
    }
    outcome
}
