//! Appended to engine/ruleset.rs as a module, to reach its private fields: a
//! rule set is made of compiled rules, without the parser of rule texts.

use super::{CompiledRule, CompiledRuleset, RuleEngineMode, Rules};
use crate::engine::phase::Phase;

impl Rules {
    /// One phase's rules and its marker records, in record order.
    ///
    /// The published `add_marker` records a marker behind the rules that are
    /// there already. So before each record the phase's list is made as long as
    /// the record's position, and what stands behind it is kept aside. That a
    /// later record of a name replaces the earlier one is thus the published
    /// code's doing, also where the later position is the smaller.
    pub fn of_phase<'m>(
        phase: Phase,
        mut rules: Vec<CompiledRule>,
        markers: impl Iterator<Item = (&'m str, usize)>,
    ) -> Self {
        let mut made = Self::new();
        let count = rules.len();
        rules.reverse();
        let mut behind = rules;
        for (name, position) in markers {
            assert!(position <= count, "marker {name:?} above the rule count");
            let before = made.by_phase.entry(phase).or_default();
            while before.len() < position {
                before.extend(behind.pop());
            }
            behind.extend(before.drain(position..).rev());
            made.add_marker(name.to_string());
        }
        for rule in behind.into_iter().rev() {
            made.add(phase, rule);
        }
        made
    }
}

impl CompiledRuleset {
    /// A rule set of these rules and this mode.
    pub fn of_rules(rules: Rules, engine_mode: RuleEngineMode) -> Self {
        Self { rules, engine_mode }
    }
}
