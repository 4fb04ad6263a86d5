//! Stands in for src/parser/mod.rs: the published modules, and of the parser of
//! rule texts only what engine/ruleset.rs names. It reads nothing; the oracle
//! makes its actions and rules directly.

use std::path::Path;

use crate::error::{Error, Result};

mod action;
mod operator;
mod variable;

pub use action::*;
pub use operator::*;
pub use variable::*;

/// One line of a rule file.
pub enum Directive {
    SecRuleEngine(RuleEngineMode),
    SecRule(SecRule),
    SecAction(SecAction),
    SecMarker(SecMarker),
    SecRuleRemoveById(Vec<RuleIdSelector>),
    SecRuleUpdateTargetById(UpdateTargetById),
}

/// The mode as written in a rule file.
pub enum RuleEngineMode {
    On,
    Off,
    DetectionOnly,
}

pub struct SecRule {
    pub variables: Vec<VariableSpec>,
    pub operator: OperatorSpec,
    pub actions: Vec<Action>,
}

pub struct SecAction {
    pub actions: Vec<Action>,
}

pub struct SecMarker {
    pub name: String,
}

/// An id in a directive of a rule file.
#[derive(Clone, Copy)]
pub struct RuleIdSelector(pub u64);

impl RuleIdSelector {
    pub fn matches(&self, id: u64) -> bool {
        self.0 == id
    }
}

#[derive(Clone)]
pub struct UpdateTargetById {
    pub ids: Vec<RuleIdSelector>,
    pub replaced: Option<String>,
    pub exclusions: Vec<String>,
    pub additions: Vec<VariableSpec>,
}

/// Reads no rule text.
pub struct Parser;

impl Parser {
    #[allow(clippy::new_without_default)]
    pub fn new() -> Self {
        Self
    }

    pub fn parse(&mut self, _rules: &str) -> Result<()> {
        Err(Error::NoParser)
    }

    pub fn parse_file(&mut self, _path: &Path) -> Result<()> {
        Err(Error::NoParser)
    }

    pub fn into_directives(self) -> Vec<Directive> {
        Vec::new()
    }
}
