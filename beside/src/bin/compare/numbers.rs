//! Recorded cases as lines of numbers, which crates/replay reads: a list is a count and then its items, a setting is 0 or 1
//! and its value's number, and what may be absent is 0, or 1 and itself.

use beside::case::{Call, Case};
use case_format::{Answer, BodyProcessor, CallResult, Intervention, Mode, Stop};
use tivembo::raw::words;

/// One line.
#[derive(Default)]
struct Line(String);

/// A case with its results.
pub fn line(case: &Case, found: &[CallResult]) -> String {
    let (mut line, entry) = (Line::default(), &case.entry);
    line.settings(entry.mode, entry.body_access, entry.body_processor);
    line.numbers([entry.allowed.into(), entry.stopped.into()]);
    line.pairs(&entry.ranges);
    line.count(case.calls.len());
    for (call, found) in case.calls.iter().zip(found) {
        line.numbers([call.phase, case.mode.number(), case.status.into()]);
        line.call(call);
        line.found(found);
    }
    line.0
}

impl Line {
    fn number(&mut self, number: u64) {
        if !self.0.is_empty() {
            self.0.push(' ');
        }
        self.0 += &number.to_string();
    }

    fn numbers(&mut self, numbers: impl IntoIterator<Item = u64>) {
        numbers.into_iter().for_each(|number| self.number(number));
    }

    fn count(&mut self, count: usize) {
        self.number(count as u64);
    }

    fn bytes(&mut self, bytes: &[u8]) {
        self.count(bytes.len());
        self.numbers(bytes.iter().map(|byte| u64::from(*byte)));
    }

    fn pairs(&mut self, pairs: &[(u64, u64)]) {
        self.count(pairs.len());
        self.numbers(pairs.iter().flat_map(|(one, other)| [*one, *other]));
    }

    fn settings(&mut self, mode: Option<Mode>, on: Option<bool>, name: Option<BodyProcessor>) {
        self.number(mode.map_or(0, |mode| 1 + mode.number()));
        self.number(on.map_or(0, |on| if on { 1 } else { 2 }));
        self.number(name.map_or(0, |name| 1 + name.number()));
    }

    fn records(&mut self, count: usize, words: &[u64]) {
        self.count(count);
        self.numbers(words.iter().copied());
    }

    fn call(&mut self, call: &Call) {
        self.records(call.rules.len(), words(&call.rules));
        self.records(call.actions.len(), words(&call.actions));
        self.records(call.markers.len(), words(&call.markers));
        self.bytes(&call.text);
        self.bytes(&call.outcomes);
    }

    fn found(&mut self, found: &CallResult) {
        self.numbers(match found.answer {
            Answer::Done => [0, 0],
            Answer::RuleError(index) => [10, index],
            Answer::Refused(number) => [number, 0],
        });
        self.count(found.visits.len());
        for (index, verdict) in &found.visits {
            self.numbers([*index, verdict.number()]);
        }
        self.records(found.ids.len(), &found.ids);
        self.count(found.data.len());
        for (id, index) in &found.data {
            self.numbers([id.is_some().into(), id.unwrap_or(0), *index]);
        }
        self.settings(found.mode, found.body_access, found.body_processor);
        self.pairs(&found.ranges);
        self.count(found.targets.len());
        for (id, target) in &found.targets {
            self.bytes(id);
            self.bytes(target);
        }
        self.number(found.allowed.into());
        match &found.intervention {
            Stop::No => self.number(0),
            Stop::Held => self.number(2),
            Stop::New(built) => self.built(built),
        }
        let unsupported = found.unsupported;
        self.numbers(unsupported.map_or([0, 0], |it| [it.rule, it.reason.number()]));
    }

    fn built(&mut self, built: &Intervention) {
        self.numbers([1, built.status, built.drop.into()]);
        self.text(&built.url);
        self.text(&built.log);
        self.records(built.ids.len(), &built.ids);
        self.number(built.phase);
        self.optional(built.id);
        for text in [&built.msg, &built.logdata, &built.rev, &built.ver] {
            self.text(text);
        }
        for number in [built.severity, built.maturity, built.accuracy] {
            self.optional(number);
        }
    }

    fn text(&mut self, text: &Option<Vec<u8>>) {
        self.number(text.is_some().into());
        text.iter().for_each(|text| self.bytes(text));
    }

    fn optional(&mut self, number: Option<u64>) {
        self.number(number.is_some().into());
        self.numbers(number);
    }
}
