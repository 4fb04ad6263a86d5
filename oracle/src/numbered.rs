//! What a call tells only where its directives can be told apart: the targets that it added, and the first unsupported directive
//! that it passed over.
//!
//! `TransactionControls::apply` keeps a target only if its variable name is known, and what it drops is lost. Of an unsupported
//! directive it says name, value and reason, but not which rule has it, and nothing at all where it said the same before in the
//! transaction. The call is therefore made a second time, on a second transaction, with each of these directives replaced by one that
//! has its number in the call: a target directive by one that is always kept and whose rule id is the number, an unsupported one by
//! one of the same name and reason whose value is the number. Then nothing is dropped, and the numbers say which directives were
//! applied, how often and in which order.

use std::collections::HashSet;

use case_format::{Action, Call, Kind, Unsupported};
use published::engine::control::{CtlDirective, TransactionControls};
use published::parser::VariableSpec;
use published::Ignored;

use crate::{found, given};

/// The rule id and the target of a directive.
type Target = (String, String);

/// A call whose target directives and unsupported directives are numbered.
pub(crate) struct Numbered {
    call: Call,
    /// What each number of a target directive stands for.
    targets: Vec<Target>,
    /// What each number of an unsupported directive stands for.
    unsupported: Vec<Passed>,
}

/// An unsupported directive of a call.
struct Passed {
    /// The index of the rule that has it.
    rule: u64,
    /// What is said of it where it is passed over.
    said: Ignored,
}

impl Numbered {
    /// None where the call has no such directive.
    pub(crate) fn of(call: &Call) -> Option<Self> {
        let mut numbered = None;
        for (index, rule) in call.rules.iter().enumerate() {
            for (at, action) in rule.actions.iter().enumerate() {
                if let Some(directive) = directive_of(action) {
                    let numbered = numbered.get_or_insert_with(|| Self::without_numbers(call));
                    let replaced = numbered.replace(index as u64, action, directive);
                    numbered.call.rules[index].actions[at] = replaced;
                }
            }
        }
        numbered
    }

    fn without_numbers(call: &Call) -> Self {
        Self {
            call: call.clone(),
            targets: Vec::new(),
            unsupported: Vec::new(),
        }
    }

    /// Numbers a directive of a rule, and gives the action that takes its place.
    fn replace(&mut self, rule: u64, action: &Action, directive: CtlDirective) -> Action {
        match directive {
            CtlDirective::RuleRemoveTargetById { rule_id, target } => {
                let value = format!("{};TX", self.targets.len());
                self.targets.push((rule_id, target));
                Action::of(Kind::Ctl, 0, b"ruleRemoveTargetById", value.as_bytes())
            }
            CtlDirective::Unsupported {
                directive,
                value,
                reason,
            } => {
                // No mode, access or processor, no list of ids, no two sides: unsupported by whatever name, for that name's reason.
                let number = format!("#{}", self.unsupported.len());
                let reason = reason.to_string();
                let said = Ignored {
                    directive,
                    value,
                    reason,
                };
                self.unsupported.push(Passed { rule, said });
                Action::of(Kind::Ctl, 0, action.text(), number.as_bytes())
            }
            other => panic!("{other:?} has no number"),
        }
    }

    /// The call with the numbered directives.
    pub(crate) fn call(&self) -> &Call {
        &self.call
    }

    /// The targets whose numbers the second transaction added. Applied once more, they must leave exactly what the first transaction,
    /// fed with the directives as given, kept of them.
    pub(crate) fn targets(
        &self,
        numbers: &[(String, VariableSpec)],
        kept: &[(String, VariableSpec)],
    ) -> Vec<Target> {
        let number = |id: &str| id.parse::<usize>().expect("a number of ours");
        let targets = numbers.iter().map(|(id, _)| &self.targets[number(id)]);
        let targets: Vec<Target> = targets.cloned().collect();
        let mut controls = TransactionControls::default();
        for (rule_id, target) in targets.iter().cloned() {
            controls.apply(CtlDirective::RuleRemoveTargetById { rule_id, target });
        }
        assert_eq!(
            format!("{:?}", controls.removed_targets()),
            format!("{kept:?}"),
            "the numbered targets are not those that were kept"
        );
        targets
    }

    /// The first unsupported directive that the second call passed over. What it passed over must be exactly what the first call,
    /// which was given the directives as they are, said; but for what its transaction had said before, in this call or an earlier one.
    pub(crate) fn unsupported(
        &self,
        numbers: &[Ignored],
        said: &[Ignored],
        mut reported: HashSet<String>,
    ) -> Option<Unsupported> {
        let passed: Vec<&Passed> = numbers.iter().map(|number| self.passed(number)).collect();
        let is_new = |it: &&Ignored| reported.insert(format!("{}={}", it.directive, it.value));
        let expected = passed.iter().map(|passed| &passed.said).filter(is_new);
        assert_eq!(
            expected.collect::<Vec<_>>(),
            said.iter().collect::<Vec<_>>(),
            "the numbered directives that were passed over are not those that were told"
        );
        let first = passed.first()?;
        Some(Unsupported {
            rule: first.rule,
            reason: found::reason(&first.said.reason),
        })
    }

    /// The directive whose number was passed over.
    fn passed(&self, number: &Ignored) -> &Passed {
        let at = number
            .value
            .strip_prefix('#')
            .and_then(|at| at.parse().ok());
        let at: usize = at.expect("a number of ours");
        let passed = &self.unsupported[at];
        assert_eq!(
            (&number.directive, &number.reason),
            (&passed.said.directive, &passed.said.reason),
            "another value changed the name or the reason"
        );
        passed
    }
}

/// What an action says that is a target directive or an unsupported one.
fn directive_of(action: &Action) -> Option<CtlDirective> {
    if action.kind() != Kind::Ctl {
        return None;
    }
    let directive = CtlDirective::parse(&given::control(action.text(), action.value()));
    let is_numbered = matches!(
        directive,
        CtlDirective::RuleRemoveTargetById { .. } | CtlDirective::Unsupported { .. }
    );
    is_numbered.then_some(directive)
}

#[cfg(test)]
mod tests {
    use super::*;
    use case_format::{Rule, UnsupportedReason};
    use published::listen;

    /// A call of rules that match, each with these directives.
    fn call(rules: &[&[(&str, &str)]]) -> Call {
        let action = |&(name, value): &(&str, &str)| {
            Action::of(Kind::Ctl, 0, name.as_bytes(), value.as_bytes())
        };
        let rule = |directives: &&[(&str, &str)]| Rule {
            id: None,
            link: false,
            outcome: case_format::Outcome::Matched,
            actions: directives.iter().map(action).collect(),
        };
        Call {
            phase: 1,
            rules: rules.iter().map(rule).collect(),
            markers: Vec::new(),
        }
    }

    fn said(directive: &str, value: &str, reason: &str) -> Ignored {
        Ignored {
            directive: directive.to_string(),
            value: value.to_string(),
            reason: reason.to_string(),
        }
    }

    const AUDIT: &str = "this engine has no audit log subsystem, so there is nothing to control";
    const UNRECOGNISED: &str = "unrecognised ctl directive";

    /// Two rules: a directive that is not recognised, then an audit directive.
    fn two() -> Numbered {
        let rules: [&[(&str, &str)]; 2] = [&[(" foo ", "1")], &[("AuditEngine", "On")]];
        Numbered::of(&call(&rules)).expect("both are unsupported")
    }

    #[test]
    fn only_target_and_unsupported_directives_are_numbered() {
        let supported = [("ruleEngine", "On"), ("ruleRemoveById", "7")];
        assert!(Numbered::of(&call(&[&supported])).is_none());
        let mixed = [
            ("ruleEngine", "On"),
            ("ruleEngine", "x"),
            ("ruleRemoveTargetById", "1;ARGS"),
        ];
        let numbered = Numbered::of(&call(&[&[], &mixed])).expect("two are numbered");
        let actions = numbered.call().rules[1].actions.iter();
        let printed: Vec<String> = actions.map(Action::to_string).collect();
        let expected = [
            "ctl \"ruleEngine\" \"On\"",
            "ctl \"ruleEngine\" \"#0\"",
            "ctl \"ruleRemoveTargetById\" \"0;TX\"",
        ];
        assert_eq!(printed, expected);
        assert_eq!(numbered.unsupported[0].rule, 1);
    }

    /// Each directive keeps its name and its reason when its value becomes a number.
    #[test]
    fn a_number_keeps_name_and_reason() {
        let directives = [
            ("RULEENGINE", ""),
            ("ruleRemoveById", "1,5-4"),
            ("ruleRemoveTargetById", "1;"),
            ("requestBodyAccess", "DetectionOnly"),
            (" requestBodyProcessor", "YAML"),
            ("auditLogParts", "+E"),
            ("", "On"),
        ];
        let numbered = Numbered::of(&call(&[&directives])).expect("all are unsupported");
        for (at, action) in numbered.call().rules[0].actions.iter().enumerate() {
            let directive = directive_of(action).expect("it is unsupported again");
            let mut controls = TransactionControls::default();
            let ((), heard) = listen(|| controls.apply(directive));
            let passed = numbered.passed(&heard[0]);
            assert_eq!(passed.said, numbered.unsupported[at].said);
            let reason = UnsupportedReason::ALL[at];
            assert_eq!(found::reason(&passed.said.reason), reason);
        }
    }

    #[test]
    fn the_first_number_is_told() {
        let numbers = [
            said("AuditEngine", "#1", AUDIT),
            said("foo", "#0", UNRECOGNISED),
        ];
        let first = [
            said("AuditEngine", "On", AUDIT),
            said("foo", "1", UNRECOGNISED),
        ];
        let pair = two().unsupported(&numbers, &first, HashSet::new());
        let reason = UnsupportedReason::Audit;
        assert_eq!(pair, Some(Unsupported { rule: 1, reason }));
        assert_eq!(two().unsupported(&[], &[], HashSet::new()), None);
    }

    #[test]
    fn what_was_reported_before_is_not_said_again() {
        let numbers = [
            said("foo", "#0", UNRECOGNISED),
            said("AuditEngine", "#1", AUDIT),
        ];
        let reported = HashSet::from(["foo=1".to_string()]);
        let pair = two().unsupported(&numbers, &[said("AuditEngine", "On", AUDIT)], reported);
        assert_eq!(pair.map(|pair| pair.rule), Some(0));
    }

    #[test]
    #[should_panic(expected = "are not those that were told")]
    fn a_directive_that_was_not_told_is_found() {
        two().unsupported(&[said("foo", "#0", UNRECOGNISED)], &[], HashSet::new());
    }

    #[test]
    #[should_panic(expected = "are not those that were told")]
    fn one_that_was_told_and_not_passed_over_is_found() {
        two().unsupported(&[], &[said("foo", "1", UNRECOGNISED)], HashSet::new());
    }

    #[test]
    #[should_panic(expected = "another value changed")]
    fn another_reason_is_found() {
        two().unsupported(&[said("foo", "#0", AUDIT)], &[], HashSet::new());
    }
}
