//! The time of the published `run_phase` alone.
//!
//! The rule set is made once, and each call's transaction before the clock is read. The operators write nothing down and
//! report no matched portion, so that nothing of ours is in the measured time but one function that answers yes or no.

use std::hint::black_box;
use std::sync::Arc;
use std::time::{Duration, Instant};

use case_format::{Call, Case, Outcome};
use published::engine::control::{RuleIdRange, TransactionControls};
use published::engine::phase::Phase;
use published::engine::ruleset::{CompiledRule, CompiledRuleset};
use published::engine::transaction::Transaction;
use published::operators::{Operator, OperatorResult};

use crate::{feed, given};

/// How a missed rule is made.
#[derive(Debug, Clone, Copy, PartialEq, Eq)]
pub enum Missed {
    /// As the oracle makes it: with one variable, which is counted and written as a text, and an operator without match.
    WithVariable,
    /// With no variable, so that the operator is asked at once. Nothing that misses costs the Rust less.
    Bare,
}

/// A call that is made again and again, each time on a transaction of its own.
pub struct Timed {
    ruleset: Arc<CompiledRuleset>,
    phase: Phase,
    block_status: u16,
    ranges: Vec<RuleIdRange>,
}

impl Timed {
    /// The only call of a case. Of what the transaction holds before it, the ranges are taken.
    pub fn new(case: &Case, missed: Missed) -> Self {
        let [call] = case.calls.as_slice() else {
            panic!("a case of one call is timed");
        };
        let rules = (0..call.rules.len())
            .map(|index| rule(call, index, missed))
            .collect();
        Self {
            ruleset: Arc::new(feed::ruleset_of(call, rules, case.mode)),
            phase: given::phase(call.phase),
            block_status: given::held(case.block_status),
            ranges: given::ranges(&case.entry.ranges),
        }
    }

    /// The ids of the matched rules, and of the matched data, to compare them with those of [`crate::Run`].
    pub fn matched(&self) -> (Vec<String>, Vec<Option<String>>) {
        let mut transaction = self.transaction();
        let ended = transaction.run_phase_alone(self.phase);
        ended.expect("no rule was made to give an error");
        let data = transaction.matched_data().iter();
        (
            transaction.matched_rules().to_vec(),
            data.map(|entry| entry.rule_id.clone()).collect(),
        )
    }

    /// How long so many calls take.
    pub fn time(&self, calls: u32) -> Duration {
        let mut whole = Duration::ZERO;
        for _ in 0..calls {
            let mut transaction = self.transaction();
            let begin = Instant::now();
            let ended = black_box(&mut transaction).run_phase_alone(self.phase);
            whole += begin.elapsed();
            black_box(ended).expect("no rule was made to give an error");
        }
        whole
    }

    fn transaction(&self) -> Transaction {
        let controls = TransactionControls::at_entry(None, self.ranges.clone(), None, None);
        let mut transaction = Transaction::at_entry(self.block_status, controls, false, None);
        transaction.set_ruleset(self.ruleset.clone());
        transaction
    }
}

fn rule(call: &Call, index: usize, missed: Missed) -> CompiledRule {
    let matched = call.rules[index].outcome != Outcome::Missed;
    let mut rule = feed::compiled_rule(call, index, Arc::new(Silent { matched }));
    if !matched && missed == Missed::Bare {
        rule.variables.clear();
    }
    rule
}

/// An operator that answers what it was told and does nothing else.
struct Silent {
    matched: bool,
}

impl Operator for Silent {
    fn execute(&self, _value: &str) -> OperatorResult {
        OperatorResult {
            matched: self.matched,
            captures: Vec::new(),
            matched_value: None,
        }
    }

    fn name(&self) -> &'static str {
        "silent"
    }
}
