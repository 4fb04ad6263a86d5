//! What the numbers that a call wrote stand for.

use crate::case::Call;
use crate::model::trimmed;
use case_format::{
    Answer, BodyProcessor, Intervention, Mode, Stop, Unsupported, UnsupportedReason, Verdict,
};
use tivembo::{Act, HostAnswer, HostControls, HostTransaction, Place};

/// The answer, with 10 the index of the rule in error.
pub fn answer(answer: &HostAnswer) -> Answer {
    match answer.answer {
        0 => Answer::Done,
        10 => Answer::RuleError(answer.error),
        number => Answer::Refused(number),
    }
}

/// A visit; none where its verdict has no name, which is a fault of its own.
pub fn visit(entry: &[u64]) -> Option<(u64, Verdict)> {
    let verdict = Verdict::from_number(entry[1])?;
    Some((entry[0], verdict))
}

/// The unsupported directive that is told, if any; none where the two numbers stand for nothing, which is a fault of its own.
pub fn unsupported(rule: u64, reason: u64) -> Option<Option<Unsupported>> {
    if (rule, reason) == (0, 0) {
        return Some(None);
    }
    let reason = UnsupportedReason::from_number(reason)?;
    Some(Some(Unsupported { rule, reason }))
}

/// Mode, body access and body processor, each none where nothing set it.
pub type Settings = (Option<Mode>, Option<bool>, Option<BodyProcessor>);

/// What is set; none where a number has no name.
pub fn settings(controls: &HostControls) -> Option<Settings> {
    let mode = set(controls.mode, Mode::from_number)?;
    let on_off = |number| [true, false].get(number as usize).copied();
    let access = set(controls.access, on_off)?;
    let processor = set(controls.processor, BodyProcessor::from_number)?;
    Some((mode, access, processor))
}

/// A setting is 0 where nothing set it, else 1 and its value's number.
fn set<T>(number: u64, named: impl Fn(u64) -> Option<T>) -> Option<Option<T>> {
    match number.checked_sub(1) {
        None => Some(None),
        Some(number) => Some(Some(named(number)?)),
    }
}

/// A data entry. One of another phase than the call's has no rule of this call: its index is then nonsense on purpose.
pub fn data_entry(call: &Call, entry: &[u64]) -> (Option<u64>, u64) {
    let index = if entry[2] == call.phase {
        entry[3]
    } else {
        u64::MAX
    };
    ((entry[0] == 1).then_some(entry[1]), index)
}

/// The intervention after a call, with its texts.
pub fn stop(call: &Call, before: &HostTransaction, now: &HostTransaction) -> Stop {
    match tivembo::Intervention::from_record(&now.intervention) {
        None => Stop::No,
        Some(_) if before.intervention.present == 1 => Stop::Held,
        Some(new) => Stop::New(Box::new(built(call, &new))),
    }
}

fn built(call: &Call, new: &tivembo::Intervention) -> Intervention {
    let text = |place: Option<Place>| place.map(|place| text(call, place));
    let metadata = &new.metadata;
    Intervention {
        status: new.status,
        drop: new.drop,
        url: text(new.url),
        log: text(new.log),
        ids: new.ids().collect(),
        phase: new.phase,
        id: metadata.id,
        msg: text(metadata.msg),
        logdata: text(metadata.logdata),
        rev: text(metadata.rev),
        ver: text(metadata.ver),
        severity: metadata.severity,
        maturity: metadata.maturity,
        accuracy: metadata.accuracy,
    }
}

/// The action at a place, which must be of this call: a call adds none of another.
fn action(call: &Call, place: Place) -> Option<Act<'_>> {
    let at = usize::try_from(place.position).ok()?;
    let record = call.actions.get(at).filter(|_| place.phase == call.phase)?;
    Act::from_record(record, &call.text)
}

fn text(call: &Call, place: Place) -> Vec<u8> {
    match action(call, place) {
        Some(
            Act::Redirect(text)
            | Act::Msg(text)
            | Act::LogData(text)
            | Act::Rev(text)
            | Act::Ver(text),
        ) => text.to_vec(),
        _ => no_text(place),
    }
}

/// 01: "cut at the first ";", both sides trimmed".
pub fn target(call: &Call, place: Place) -> (Vec<u8>, Vec<u8>) {
    let Some(Act::Ctl(_, value)) = action(call, place) else {
        return (no_text(place), Vec::new());
    };
    let cut = value.iter().position(|byte| *byte == b';');
    let (id, target) = value.split_at(cut.unwrap_or(value.len()));
    let target = target.strip_prefix(b";").unwrap_or(target);
    (trimmed(id).to_vec(), trimmed(target).to_vec())
}

/// Stands for a text that is not there; no text of a case has such bytes.
fn no_text(place: Place) -> Vec<u8> {
    format!("\u{80} no text at {place:?}").into_bytes()
}

#[cfg(test)]
mod tests {
    use super::*;

    #[test]
    fn unsupported_directives() {
        let pair = |rule, reason| Some(Some(Unsupported { rule, reason }));
        assert_eq!(unsupported(0, 0), Some(None));
        assert_eq!(unsupported(0, 7), pair(0, UnsupportedReason::Unrecognised));
        assert_eq!(unsupported(3, 1), pair(3, UnsupportedReason::ModeValue));
        assert_eq!(unsupported(3, 0), None);
        assert_eq!(unsupported(0, 8), None);
    }
}
