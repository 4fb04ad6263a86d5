//! What differences of the same cause have in common.

use beside::case::Case;
use beside::model::trimmed;
use case_format::{Action, Kind};

/// Two differences are taken to have the same cause where their shrunk cases have the same shape and differ in the same things.
/// What is not the same in both is taken to be another cause, so that none is hidden by being counted with another.
#[derive(Debug, PartialEq, Eq)]
pub struct Cause {
    differing: Vec<String>,
    shape: case_format::Case,
}

impl Cause {
    /// Of a shrunk case, and in what its last call differs.
    pub fn of(case: &Case, differing: &[String]) -> Self {
        Self {
            differing: differing.to_vec(),
            shape: shape(case),
        }
    }
}

/// The case without its numbers and texts. What stays is what it is made of: rules with links, outcomes, whether they have
/// an id, and the kinds of their actions, of a ctl the directive too; how many ranges and markers; modes and settings.
fn shape(case: &Case) -> case_format::Case {
    let mut shape = case.written("");
    shape.block_status = 0;
    shape.entry.ranges.fill((0, 0));
    for call in &mut shape.calls {
        call.phase = 0;
        for rule in &mut call.rules {
            rule.id = rule.id.map(|_| 0);
            rule.actions.iter_mut().for_each(|it| *it = bare(it));
        }
        for marker in &mut call.markers {
            (marker.name, marker.position) = (Vec::new(), 0);
        }
    }
    shape
}

fn bare(action: &Action) -> Action {
    let directive = match action.kind() {
        Kind::Ctl => trimmed(action.text()).to_ascii_lowercase(),
        _ => Vec::new(),
    };
    Action::of(action.kind(), 0, &directive, b"")
}

#[cfg(test)]
mod tests {
    use super::*;
    use beside::case::{outcome, Call};
    use tivembo::{Act, RuleSet};

    fn cause(id: u64, act: Act<'_>, differing: &str) -> Cause {
        let mut rules = RuleSet::builder();
        rules.rule(Some(id), false, &[act]);
        let call = Call::of_rules(id % 5, &rules.build_as_given(), vec![outcome::MATCHED]);
        let case = Case {
            calls: vec![call],
            ..Case::default()
        };
        Cause::of(&case, &[differing.to_string()])
    }

    #[test]
    fn numbers_and_texts_are_no_part_of_it() {
        let one = cause(1, Act::Msg(b"a"), "ids");
        assert_eq!(one, cause(2, Act::Msg(b"b"), "ids"));
        assert_ne!(one, cause(1, Act::Msg(b"a"), "data"));
        assert_ne!(one, cause(1, Act::Rev(b"a"), "ids"));
    }

    #[test]
    fn a_directive_is() {
        let one = cause(1, Act::Ctl(b"ruleEngine", b"On"), "mode");
        assert_eq!(one, cause(1, Act::Ctl(b" RULEENGINE", b"Off"), "mode"));
        assert_ne!(one, cause(1, Act::Ctl(b"ruleRemoveById", b"On"), "mode"));
    }
}
