//! Appended to engine/transaction.rs as a module, to reach its private fields:
//! a transaction is made as it is before the first call, each call brings its
//! own rules, and what no published function tells is read here.

use std::sync::Arc;

use super::Transaction;
use crate::engine::control::TransactionControls;
use crate::engine::intervention::Intervention;
use crate::engine::phase::Phase;
use crate::engine::ruleset::CompiledRuleset;
use crate::error::Result;

impl Transaction {
    /// A transaction that holds these already.
    pub fn at_entry(
        default_status: u16,
        controls: TransactionControls,
        allowed: bool,
        intervention: Option<Intervention>,
    ) -> Self {
        Self {
            controls,
            allowed,
            intervention,
            ..Self::new(Arc::new(CompiledRuleset::new()), default_status)
        }
    }

    /// Calls the published `run_phase` with this rule set.
    pub fn run_phase_of(&mut self, ruleset: CompiledRuleset, phase: Phase) -> Result<()> {
        self.ruleset = Arc::new(ruleset);
        self.run_phase(phase)
    }

    /// Sets the rule set of later calls.
    pub fn set_ruleset(&mut self, ruleset: Arc<CompiledRuleset>) {
        self.ruleset = ruleset;
    }

    /// Calls the published `run_phase` with the rule set that is there.
    pub fn run_phase_alone(&mut self, phase: Phase) -> Result<()> {
        self.run_phase(phase)
    }

    /// The controls.
    pub fn controls(&self) -> &TransactionControls {
        &self.controls
    }

    /// The allowed flag.
    pub fn allowed(&self) -> bool {
        self.allowed
    }
}
