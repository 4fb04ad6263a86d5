//! Calls of the published `run_phase` on one transaction, and what it then holds.

use case_format::{Answer, Call, CallResult, Case, CaseResult, Entry, Mode, Stop, Verdict};
use published::engine::control::CtlDirective;
use published::engine::intervention::Intervention;
use published::engine::transaction::{MatchedData, Transaction};
use published::listen;
use published::parser::VariableSpec;

use crate::merged::merged;
use crate::numbered::Numbered;
use crate::{feed, found, given};

/// A transaction and the calls made on it.
pub struct Run {
    transaction: Transaction,
    mode: Mode,
    block_status: u16,
}

/// Runs all calls of a case on one transaction.
pub fn run_case(case: &Case) -> CaseResult {
    let mut run = Run::new(case.mode, case.block_status, &case.entry);
    CaseResult {
        name: case.name.clone(),
        calls: case.calls.iter().map(|call| run.call(call)).collect(),
    }
}

/// What the published directive reader makes of a directive and its value.
pub fn directive(name: &[u8], value: &[u8]) -> CtlDirective {
    CtlDirective::parse(&given::control(name, value))
}

impl Run {
    /// A transaction before its first call.
    pub fn new(mode: Mode, block_status: u64, entry: &Entry) -> Self {
        let block_status = given::held(block_status);
        let controls = given::controls(entry);
        let held = entry.stopped.then(Intervention::default);
        Self {
            transaction: Transaction::at_entry(block_status, controls, entry.allowed, held),
            mode,
            block_status,
        }
    }

    /// Makes one call.
    ///
    /// The transaction drops targets with unknown variable names, and tells of an
    /// unsupported directive only once, and not of which rule. Where the call has
    /// such directives, a second transaction that stands as this one does before
    /// the call tells which of them were applied; see [`Numbered`].
    pub fn call(&mut self, call: &Call) -> CallResult {
        let Some(numbered) = Numbered::of(call) else {
            return self.run_phase(call);
        };
        let mut second = self.second();
        let held = self.removed_targets().len();
        let reported = self.transaction.controls().reported().clone();
        let (mut result, said) = listen(|| self.run_phase(call));
        let (second_result, numbers) = listen(|| second.run_phase(numbered.call()));
        assert_eq!(
            result, second_result,
            "numbered directives changed something besides the targets and what is said"
        );
        let (added, kept) = (second.removed_targets(), self.removed_targets());
        let added = numbered.targets(&added[held..], &kept[held..]);
        let bytes = |(id, target): (String, String)| (id.into_bytes(), target.into_bytes());
        result.targets = added.into_iter().map(bytes).collect();
        result.unsupported = numbered.unsupported(&numbers, &said, reported);
        result
    }

    /// Another transaction that holds what this one holds, as far as a call
    /// looks at it, and has reported nothing yet.
    fn second(&self) -> Self {
        let transaction = Transaction::at_entry(
            self.block_status,
            self.transaction.controls().with_nothing_reported(),
            self.transaction.allowed(),
            self.transaction.intervention().cloned(),
        );
        Self {
            transaction,
            ..*self
        }
    }

    /// The ranges as the Rust holds them: each as it was added, in that order.
    pub fn plain_ranges(&self) -> Vec<(u64, u64)> {
        found::ranges(self.transaction.controls().removed_rules())
    }

    fn removed_targets(&self) -> &[(String, VariableSpec)] {
        self.transaction.controls().removed_targets()
    }

    /// Calls the published `run_phase` and reads all results but the targets and
    /// the unsupported directive.
    fn run_phase(&mut self, call: &Call) -> CallResult {
        let ids = self.transaction.matched_rules().len();
        let data = self.transaction.matched_data().len();
        let held = self.transaction.has_intervention();
        let (ruleset, visits) = feed::ruleset(call, self.mode);

        let ended = self
            .transaction
            .run_phase_of(ruleset, given::phase(call.phase));

        let mut visits = std::mem::take(&mut *visits.lock().expect("one thread runs a call"));
        let answer = answer(ended, &mut visits);
        let controls = self.transaction.controls();
        let data = self.transaction.matched_data()[data..].iter();
        CallResult {
            phase: call.phase,
            answer,
            visits,
            ids: found::ids(&self.transaction.matched_rules()[ids..]),
            data: data.map(data_entry).collect(),
            mode: controls.set_engine_mode().map(found::mode),
            body_access: controls.set_request_body_access(),
            body_processor: controls.request_body_processor().map(found::body_processor),
            ranges: merged(&self.plain_ranges()),
            targets: Vec::new(),
            allowed: self.transaction.allowed(),
            intervention: self.stop(held),
            unsupported: None,
        }
    }

    fn stop(&self, held: bool) -> Stop {
        match self.transaction.intervention() {
            None => Stop::No,
            Some(_) if held => Stop::Held,
            Some(new) => Stop::New(Box::new(found::intervention(new))),
        }
    }
}

/// The answer, with the rule that gave the error as the last visit.
fn answer(ended: published::error::Result<()>, visits: &mut Vec<(u64, Verdict)>) -> Answer {
    let Err(error) = ended else {
        return Answer::Done;
    };
    let index = feed::index_of_error(&error) as u64;
    visits.push((index, Verdict::Error));
    Answer::RuleError(index)
}

/// An entry of the matched data, with the rule index that its portion carries.
fn data_entry(data: &MatchedData) -> (Option<u64>, u64) {
    let portion = data.matched_portion.as_deref();
    let index = portion.and_then(|portion| portion.parse().ok());
    let index = index.expect("the portion of a match is the rule's index");
    (data.rule_id.as_deref().map(found::id), index)
}

#[cfg(test)]
mod tests {
    use super::*;
    use case_format::text::or_dash;
    use case_format::{Item, Reader};
    use published::engine::control::TransactionControls;

    fn case(calls: &str) -> Case {
        let text = format!("case x\nmode On\nblock-status 403\n{calls}end\n");
        let item = Reader::new(text.as_bytes()).item();
        let Ok(Some(Item::Case(case))) = item else {
            panic!("not a case: {item:?}");
        };
        case
    }

    /// What the calls of a case gave.
    fn results(calls: &str) -> Vec<CallResult> {
        run_case(&case(calls)).calls
    }

    fn unsupported(calls: &str) -> Vec<String> {
        let pair = |call: &CallResult| or_dash(call.unsupported);
        results(calls).iter().map(pair).collect()
    }

    /// The transaction reports it once, and each call tells it.
    #[test]
    fn the_same_directive_in_two_calls() {
        let first = "call 1\nrule 1 matched\nctl \"foo\" \"1\"\n";
        let second = "call 1\nrule 1 missed\nrule 2 matched\nctl \"foo\" \"1\"\n";
        assert_eq!(unsupported(&format!("{first}{second}")), ["0 7", "1 7"]);
        let nothing_to_do = "call 2\n";
        assert_eq!(
            unsupported(&format!("{first}{nothing_to_do}")),
            ["0 7", "-"]
        );
    }

    #[test]
    fn the_same_directive_twice_in_a_call() {
        let rules = "rule 1 matched\nctl \"foo\" \"1\"\nrule 2 matched\nctl \"foo\" \"1\"\n";
        assert_eq!(unsupported(&format!("call 1\n{rules}")), ["0 7"]);
    }

    /// What was reported before may look like one of our numbers.
    #[test]
    fn a_value_like_a_number() {
        let rule = |value: &str| format!("call 1\nrule 1 matched\nctl \"foo\" \"{value}\"\n");
        assert_eq!(unsupported(&(rule("#0") + &rule("x"))), ["0 7", "0 7"]);
    }

    /// A target with an unknown variable name is reported too, but its directive is supported.
    #[test]
    fn a_target_that_is_dropped() {
        let target = "ctl \"ruleRemoveTargetById\" \"1;NOTHING\"\n";
        let call = format!("call 1\nrule 1 matched\n{target}{target}");
        let found = results(&call);
        assert_eq!((found[0].unsupported, found[0].targets.len()), (None, 2));
        let more = "rule 2 matched\nctl \"auditEngine\" \"On\"\n";
        assert_eq!(unsupported(&format!("{call}{more}")), ["1 6"]);
    }

    /// The published code keeps each range as it was added; what is held is told in the merged form.
    #[test]
    fn ranges_are_told_merged() {
        let rule =
            |ids: &str| format!("call 1\nrule 1 matched\nctl \"ruleRemoveById\" \"{ids}\"\n");
        let calls = format!("entry-range 30 31\n{}{}", rule("8-9,20"), rule("5-7,9"));
        let found = results(&calls);
        assert_eq!(found[0].ranges, [(8, 9), (20, 20), (30, 31)]);
        assert_eq!(found[1].ranges, [(5, 9), (20, 20), (30, 31)]);
        let case = case(&calls);
        let mut run = Run::new(case.mode, case.block_status, &case.entry);
        case.calls.iter().for_each(|call| drop(run.call(call)));
        let plain = [(30, 31), (8, 9), (20, 20), (5, 7), (9, 9)];
        assert_eq!(run.plain_ranges(), plain);
    }

    /// Of all that the published code says, only what it says of unsupported directives is heard.
    #[test]
    fn other_messages_are_dropped() {
        let mut controls = TransactionControls::default();
        let mut hear = |name: &str, value: &str| {
            let directive = directive(name.as_bytes(), value.as_bytes());
            listen(|| controls.apply(directive)).1.len()
        };
        assert_eq!(hear("ruleRemoveTargetById", "1;NOTHING"), 0);
        assert_eq!(hear("ruleRemoveTargetById", "1;"), 1);
        assert_eq!(hear("ruleRemoveTargetById", "1;"), 0);
        assert_eq!(hear("ruleEngine", "On"), 0);
    }
}
