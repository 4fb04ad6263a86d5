//! Appended to engine/control.rs as a module, to reach its private fields: the
//! controls at entry are set here, and the controls after a call read.

use std::collections::HashSet;

use super::{RuleIdRange, TransactionControls};
use crate::engine::ruleset::RuleEngineMode;
use crate::parser::VariableSpec;

impl RuleIdRange {
    /// A range as held. Its start may be above its end; it then covers nothing.
    pub fn new(start: u64, end: u64) -> Self {
        Self { start, end }
    }

    /// Start and end.
    pub fn ends(&self) -> (u64, u64) {
        (self.start, self.end)
    }
}

impl TransactionControls {
    /// Controls as they are before the first call.
    pub fn at_entry(
        engine_mode: Option<RuleEngineMode>,
        removed_rules: Vec<RuleIdRange>,
        request_body_access: Option<bool>,
        request_body_processor: Option<String>,
    ) -> Self {
        Self {
            engine_mode,
            removed_rules,
            request_body_access,
            request_body_processor,
            ..Self::default()
        }
    }

    /// The mode set by the controls, where one is.
    pub fn set_engine_mode(&self) -> Option<RuleEngineMode> {
        self.engine_mode
    }

    /// The body access set by the controls, where one is.
    pub fn set_request_body_access(&self) -> Option<bool> {
        self.request_body_access
    }

    /// All ranges held.
    pub fn removed_rules(&self) -> &[RuleIdRange] {
        &self.removed_rules
    }

    /// All targets held.
    pub fn removed_targets(&self) -> &[(String, VariableSpec)] {
        &self.removed_targets
    }

    /// What was reported already: it is not reported again.
    pub fn reported(&self) -> &HashSet<String> {
        &self.reported
    }

    /// The same controls, with nothing reported.
    pub fn with_nothing_reported(&self) -> Self {
        Self {
            reported: HashSet::new(),
            ..self.clone()
        }
    }
}
