//! Real compiled rules that give the given outcomes when the published
//! `evaluate_rule` evaluates them.

use std::sync::{Arc, Mutex};

use case_format::{Call, Mode, Outcome, Rule, Verdict};
use published::engine::ruleset::{CompiledRule, CompiledRuleset, Rules};
use published::error::Error;
use published::operators::{Operator, OperatorResult};
use published::parser::{OperatorName, OperatorSpec, VariableName, VariableSpec};
use published::transformations::TransformationPipeline;

use crate::given;

/// Where the operators of one call's rules write down that they were run.
pub(crate) type Visits = Arc<Mutex<Vec<(u64, Verdict)>>>;

/// A macro, so that `evaluate_rule` has the operator made anew from its
/// argument. That fails, which is the rule error. The rule's index stands
/// after it, and comes back with the error.
const ERROR_MACRO: &str = "%{error}";

/// The rule set of one call, and where its visits will be found.
pub(crate) fn ruleset(call: &Call, mode: Mode) -> (CompiledRuleset, Visits) {
    let visits = Visits::default();
    let operator = |index| GivenOperator {
        index,
        matched: call.rules[index].outcome != Outcome::Missed,
        visits: visits.clone(),
    };
    let rules = (0..call.rules.len())
        .map(|index| compiled_rule(call, index, Arc::new(operator(index))))
        .collect();
    (ruleset_of(call, rules, mode), visits)
}

/// The rule set of a call's rules, compiled already, and its markers.
pub(crate) fn ruleset_of(call: &Call, rules: Vec<CompiledRule>, mode: Mode) -> CompiledRuleset {
    let names: Vec<String> = call
        .markers
        .iter()
        .map(|m| given::string(&m.name))
        .collect();
    let positions = call.markers.iter().map(|m| given::held(m.position));
    let markers = names.iter().map(String::as_str).zip(positions);
    let rules = Rules::of_phase(given::phase(call.phase), rules, markers);
    CompiledRuleset::of_rules(rules, given::mode(mode))
}

/// The index of the rule that ended the phase with this error.
pub(crate) fn index_of_error(error: &Error) -> usize {
    let Error::NoOperator { argument } = error else {
        panic!("an error that no rule was made to give: {error:?}");
    };
    let index = argument.strip_prefix(ERROR_MACRO);
    let index = index.and_then(|index| index.parse().ok());
    index.expect("the argument of a rule error carries the rule's index")
}

/// A rule of a call, with the operator that is to give its outcome.
pub(crate) fn compiled_rule(
    call: &Call,
    index: usize,
    operator: Arc<dyn Operator>,
) -> CompiledRule {
    let rule = &call.rules[index];
    // As the published `compile` links a chain's rules.
    let has_next = rule.link && index + 1 < call.rules.len();
    CompiledRule {
        id: rule.id.map(|id| id.to_string()),
        phase: given::phase(call.phase),
        variables: variables(rule),
        operator,
        operator_spec: operator_spec(rule, index),
        operator_negated: false,
        transformations: TransformationPipeline::new(),
        actions: rule.actions.iter().map(given::action).collect(),
        is_chain: rule.link,
        chain_next: has_next.then_some(index + 1),
    }
}

/// A rule without variables has its operator run once and matches without a
/// variable. All others have one variable that is counted: a count always has
/// one value, which no removed target can take away. Its name can't be written
/// in a rule text, so no target can name it either.
fn variables(rule: &Rule) -> Vec<VariableSpec> {
    if rule.outcome == Outcome::Matched {
        return Vec::new();
    }
    vec![VariableSpec {
        name: VariableName::InboundAnomalyScore,
        selection: None,
        count_mode: true,
        exclusions: Vec::new(),
    }]
}

fn operator_spec(rule: &Rule, index: usize) -> OperatorSpec {
    let argument = match rule.outcome {
        Outcome::Error => format!("{ERROR_MACRO}{index}"),
        _ => String::new(),
    };
    OperatorSpec {
        negated: false,
        name: OperatorName::UnconditionalMatch,
        argument,
    }
}

/// An operator that gives what it was told to give.
struct GivenOperator {
    index: usize,
    matched: bool,
    visits: Visits,
}

impl Operator for GivenOperator {
    /// A match reports the rule's index as the matched portion. The matched
    /// data keep it, and so tell which rule an entry is of.
    fn execute(&self, _value: &str) -> OperatorResult {
        let (verdict, result) = if self.matched {
            let portion = self.index.to_string();
            (Verdict::Matched, OperatorResult::matched(portion))
        } else {
            (Verdict::Missed, OperatorResult::no_match())
        };
        let mut visits = self.visits.lock().expect("one thread runs a call");
        visits.push((self.index as u64, verdict));
        result
    }

    fn name(&self) -> &'static str {
        "given"
    }
}
