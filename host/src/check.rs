//! Which limit of 01 a rule set breaks, and where.

use crate::directive::{read_directive, Directive};
use crate::limits::{
    Broken, Limit, Where, MOST_ACTIONS, MOST_BYTES, MOST_MARKERS, MOST_RANGES, MOST_RULES,
    MOST_TARGETS,
};
use crate::records::{Action, Marker, Part, Rule};
use crate::ruleset::Records;
use crate::Act;

type Checked = Result<(), Broken>;

fn broken(limit: Limit, at: Where) -> Checked {
    Err(Broken { limit, at })
}

/// The first that is broken of a list of checks.
fn first<T>(records: &[T], check: impl Fn(usize, &T) -> Checked) -> Checked {
    let mut numbered = records.iter().enumerate();
    numbered.try_for_each(|(at, record)| check(at, record))
}

impl Records<'_> {
    /// Whether the records keep within the limits, in the order of 01's numbers.
    pub fn check(&self) -> Result<(), Broken> {
        self.check_sizes()?;
        first(self.rules, |at, rule| self.check_rule(at, rule))?;
        first(self.actions, |at, action| self.check_action(at, action))?;
        first(self.markers, |at, marker| self.check_marker(at, marker))?;
        self.check_bytes()?;
        self.check_removals()
    }

    fn check_sizes(&self) -> Checked {
        if self.rules.len() > MOST_RULES {
            return broken(Limit::Rules, Where::Rule(MOST_RULES));
        }
        if self.actions.len() > MOST_ACTIONS {
            return broken(Limit::Actions, self.where_action(MOST_ACTIONS));
        }
        if self.markers.len() > MOST_MARKERS {
            return broken(Limit::Markers, Where::Marker(MOST_MARKERS));
        }
        if self.text.len() > MOST_BYTES {
            return broken(Limit::Text, self.where_byte(MOST_BYTES));
        }
        Ok(())
    }

    fn check_rule(&self, at: usize, rule: &Rule) -> Checked {
        if rule.present > 1 || rule.link > 1 {
            return broken(Limit::Flag, Where::Rule(at));
        }
        let end = rule.first.checked_add(rule.count);
        if end.is_none_or(|end| end > self.actions.len() as u64) {
            return broken(Limit::ActionsOutside, Where::Rule(at));
        }
        Ok(())
    }

    fn check_action(&self, at: usize, action: &Action) -> Checked {
        let most = match action.kind {
            0..=7 | 9..=15 | 19 => u64::MAX,
            8 => u64::from(u32::MAX),
            16..=18 => u64::from(u8::MAX),
            20 => u64::from(u16::MAX),
            _ => return broken(Limit::Kind, self.where_action(at)),
        };
        if action.number > most {
            return broken(Limit::Number(most), self.where_action(at));
        }
        if action.text.of(self.text).is_none() || action.value.of(self.text).is_none() {
            return broken(Limit::PartOutside, self.where_action(at));
        }
        Ok(())
    }

    fn check_marker(&self, at: usize, marker: &Marker) -> Checked {
        if marker.name.of(self.text).is_none() {
            return broken(Limit::PartOutside, Where::Marker(at));
        }
        if marker.position > self.rules.len() as u64 {
            return broken(Limit::Position, Where::Marker(at));
        }
        Ok(())
    }

    fn check_bytes(&self) -> Checked {
        match self.text.iter().position(|byte| !byte.is_ascii()) {
            Some(at) => broken(Limit::HighByte, self.where_byte(at)),
            None => Ok(()),
        }
    }

    /// 01 counts the ranges and targets of all rules, rule by rule, whatever rules match.
    fn check_removals(&self) -> Checked {
        let positions = 0..self.actions.len();
        let (ranges, targets): (Vec<_>, Vec<_>) = positions.map(|at| self.removals(at)).unzip();
        self.check_total(&ranges, MOST_RANGES, Limit::Ranges)?;
        self.check_total(&targets, MOST_TARGETS, Limit::Targets)
    }

    fn check_total(&self, counts: &[usize], most: usize, limit: Limit) -> Checked {
        let mut total = 0;
        for (index, rule) in self.rules.iter().enumerate() {
            let begin = rule.first as usize;
            let counted = &counts[begin..begin + rule.count as usize];
            total += counted.iter().sum::<usize>();
            if total > most {
                return broken(limit, Where::Rule(index));
            }
        }
        Ok(())
    }

    /// How many ranges and targets an action removes.
    fn removals(&self, position: usize) -> (usize, usize) {
        let Some(Act::Ctl(name, value)) = self.action(position as u64) else {
            return (0, 0);
        };
        match read_directive(name, value) {
            Ok(Directive::RuleRemoveById(ranges)) => (ranges.len(), 0),
            Ok(Directive::RuleRemoveTargetById(_)) => (0, 1),
            _ => (0, 0),
        }
    }

    fn where_action(&self, position: usize) -> Where {
        let nth = |rule: &Rule| (position as u64).checked_sub(rule.first);
        let has = |rule: &Rule| nth(rule).is_some_and(|nth| nth < rule.count);
        let rule = self.rules.iter().position(has);
        let kind = self.actions.get(position).map(|action| action.kind);
        Where::Action {
            position,
            rule: rule.map(|at| (at, position - self.rules[at].first as usize)),
            name: kind.and_then(|kind| Act::of(kind, 0, b"", b"").map(|act| act.name())),
        }
    }

    /// The first action or marker that has a byte of the text, else the byte itself.
    fn where_byte(&self, at: usize) -> Where {
        let has = |part: Part| {
            let from = (at as u64).checked_sub(part.start);
            from.is_some_and(|from| from < part.len)
        };
        let of_action = |action: &Action| has(action.text) || has(action.value);
        if let Some(position) = self.actions.iter().position(of_action) {
            return self.where_action(position);
        }
        let marker = self.markers.iter().position(|marker| has(marker.name));
        marker.map_or(Where::Byte(at), Where::Marker)
    }
}
