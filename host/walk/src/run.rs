//! Runs the calls of a case.

use case_format::{Call, Case};
use tivembo::{Phase, Refusal, RuleSet, RuleSets, Transaction, MOST_RANGES};

use crate::lent;

/// What one call gave, with what it was given.
pub struct Walked<'a> {
    pub case: &'a Case,
    pub call: &'a Call,
    pub rules: &'a RuleSet,
    pub result: Result<Phase<'a>, Refusal>,
    /// After the call.
    pub transaction: &'a Transaction,
    /// The ranges held before the call.
    pub before: Vec<(u64, u64)>,
    /// Whether the request was allowed before the call.
    pub allowed: bool,
    /// Whether an intervention was held before the call.
    pub held: bool,
}

impl Walked<'_> {
    /// Where the call's texts are found.
    pub fn texts(&self) -> RuleSets<'_> {
        RuleSets::new().with(self.call.phase, self.rules)
    }

    /// All ranges held after the call. Where a case holds more than a transaction has places for, its calls are turned
    /// away, and it holds them still.
    pub fn ranges(&self) -> Vec<(u64, u64)> {
        let entry = &self.case.entry.ranges;
        if entry.len() > MOST_RANGES {
            return entry.clone();
        }
        self.transaction.controls().ranges().collect()
    }

    /// The targets that the call added: rule id and target.
    pub fn targets(&self) -> Vec<(Vec<u8>, Vec<u8>)> {
        let Ok(phase) = &self.result else {
            return Vec::new();
        };
        let texts = self.texts();
        let target = |place| {
            let found = texts.target(place).expect("the call's rules have it");
            (found.rule_id.to_vec(), found.target.to_vec())
        };
        phase.targets().map(target).collect()
    }
}

/// Runs the calls of a case in order, and hands each to `print`.
pub fn run_case<E>(case: &Case, mut print: impl FnMut(&Walked) -> Result<(), E>) -> Result<(), E> {
    let mut transaction = lent::transaction(&case.entry);
    let mode = lent::mode(case.mode);
    for call in &case.calls {
        let rules = lent::rule_set(call);
        let (allowed, held) = (
            transaction.is_allowed(),
            transaction.intervention().is_some(),
        );
        let before = transaction.controls().ranges().collect();
        let outcomes = lent::outcomes(call);
        let result = transaction.run_phase(&rules, call.phase, mode, case.block_status, &outcomes);
        let result = result.map(|phase| (phase, phase.transaction()));
        let (result, transaction) = match result {
            Ok((phase, transaction)) => (Ok(phase), transaction),
            Err(refusal) => (Err(refusal), &transaction),
        };
        print(&Walked {
            case,
            call,
            rules: &rules,
            result,
            transaction,
            before,
            allowed,
            held,
        })?;
    }
    Ok(())
}
