//! A case as the records that 01 has. They are lent to the proved call as they are: rules can share actions and parts of the
//! text, which the case format cannot say. [`Case::written`] is the case that the format writes; the Rust is given that one.

use case_format::{Entry, Kind, Mode, Outcome};
use tivembo::{Act, Action, Marker, Part, Rule, RuleSet};

/// One transaction and its calls.
#[derive(Debug, Clone, PartialEq, Eq)]
pub struct Case {
    /// The rule set's mode.
    pub mode: Mode,
    /// The caller's default status, for block.
    pub status: u16,
    pub entry: Entry,
    pub calls: Vec<Call>,
}

/// One phase call.
#[derive(Debug, Clone, Default, PartialEq, Eq)]
pub struct Call {
    pub phase: u64,
    pub rules: Vec<Rule>,
    /// One for each rule.
    pub outcomes: Vec<u8>,
    pub actions: Vec<Action>,
    pub markers: Vec<Marker>,
    pub text: Vec<u8>,
}

impl Default for Case {
    /// Mode On and block status 403, as in most of 01's cases, and nothing else.
    fn default() -> Self {
        Self {
            mode: Mode::On,
            status: 403,
            entry: Entry::default(),
            calls: Vec::new(),
        }
    }
}

impl Case {
    /// As the case format writes it: each rule has actions of its own, each action texts of its own.
    pub fn written(&self, name: &str) -> case_format::Case {
        case_format::Case {
            name: name.to_string(),
            mode: self.mode,
            block_status: self.status.into(),
            entry: self.entry.clone(),
            calls: self.calls.iter().map(Call::written).collect(),
        }
    }

    /// With the records that `./walk` lends when it reads what is written.
    pub fn as_read(&self) -> Self {
        Self {
            calls: self.calls.iter().map(Call::as_read).collect(),
            ..self.clone()
        }
    }
}

impl Call {
    /// The call of a rule set's records.
    pub fn of_rules(phase: u64, rules: &RuleSet, outcomes: Vec<u8>) -> Self {
        let records = rules.records();
        Self {
            phase,
            rules: records.rules.to_vec(),
            outcomes,
            actions: records.actions.to_vec(),
            markers: records.markers.to_vec(),
            text: records.text.to_vec(),
        }
    }

    /// As the case format writes it.
    pub fn written(&self) -> case_format::Call {
        let rules = (0..self.rules.len()).map(|index| self.written_rule(index));
        let markers = self.markers.iter().map(|marker| case_format::Marker {
            name: self.text(marker.name).to_vec(),
            position: marker.position,
        });
        case_format::Call {
            phase: self.phase,
            rules: rules.collect(),
            markers: markers.collect(),
        }
    }

    fn written_rule(&self, index: usize) -> case_format::Rule {
        let action = |record: &Action| {
            let kind = Kind::from_number(record.kind).expect("a case has no unknown action");
            let (text, value) = (self.text(record.text), self.text(record.value));
            case_format::Action::of(kind, record.number, text, value)
        };
        let outcome = Outcome::from_number(self.outcomes[index].into());
        case_format::Rule {
            id: self.id_of(index),
            link: self.is_link(index),
            outcome: outcome.expect("a case has no unknown outcome"),
            actions: self.actions_of(index).iter().map(action).collect(),
        }
    }

    fn as_read(&self) -> Self {
        let mut rules = RuleSet::builder();
        for index in 0..self.rules.len() {
            let actions = self.actions_of(index).iter();
            let acts = actions.map(|record| Act::from_record(record, &self.text));
            let acts: Option<Vec<Act>> = acts.collect();
            let acts = acts.expect("a case has no unknown action");
            rules.rule(self.id_of(index), self.is_link(index), &acts);
        }
        for marker in &self.markers {
            rules.marker_at(self.text(marker.name), marker.position);
        }
        Self::of_rules(self.phase, &rules.build_as_given(), self.outcomes.clone())
    }

    /// Where a rule's actions stand.
    pub fn places_of(&self, index: usize) -> std::ops::Range<usize> {
        let rule = &self.rules[index];
        rule.first as usize..(rule.first + rule.count) as usize
    }

    /// A rule's actions, in order.
    pub fn actions_of(&self, index: usize) -> &[Action] {
        &self.actions[self.places_of(index)]
    }

    /// Whether each rule has actions of its own, and none is left over.
    pub fn is_plain(&self) -> bool {
        let mut next = 0;
        let mut rules = 0..self.rules.len();
        let in_order = rules.all(|index| {
            let places = self.places_of(index);
            let is_next = places.start == next;
            next = places.end;
            is_next
        });
        in_order && next == self.actions.len()
    }

    pub fn id_of(&self, index: usize) -> Option<u64> {
        let rule = &self.rules[index];
        (rule.present == 1).then_some(rule.id)
    }

    pub fn is_link(&self, index: usize) -> bool {
        self.rules[index].link == 1
    }

    pub fn text(&self, part: Part) -> &[u8] {
        part.of(&self.text).expect("every part lies in the text")
    }
}

/// The kinds of actions as a record has them.
pub mod kind {
    use case_format::Kind;

    pub const OTHER: u64 = Kind::Other.number();
    pub const DENY: u64 = Kind::Deny.number();
    pub const BLOCK: u64 = Kind::Block.number();
    pub const PASS: u64 = Kind::Pass.number();
    pub const ALLOW: u64 = Kind::Allow.number();
    pub const REDIRECT: u64 = Kind::Redirect.number();
    pub const DROP: u64 = Kind::Drop.number();
    pub const CHAIN: u64 = Kind::Chain.number();
    pub const SKIP: u64 = Kind::Skip.number();
    pub const SKIP_AFTER: u64 = Kind::SkipAfter.number();
    pub const MULTI_MATCH: u64 = Kind::MultiMatch.number();
    pub const ID: u64 = Kind::Id.number();
    pub const MSG: u64 = Kind::Msg.number();
    pub const LOGDATA: u64 = Kind::LogData.number();
    pub const REV: u64 = Kind::Rev.number();
    pub const VER: u64 = Kind::Ver.number();
    pub const SEVERITY: u64 = Kind::Severity.number();
    pub const MATURITY: u64 = Kind::Maturity.number();
    pub const ACCURACY: u64 = Kind::Accuracy.number();
    pub const CTL: u64 = Kind::Ctl.number();
    pub const STATUS: u64 = Kind::Status.number();
}

/// The outcomes as they are lent.
pub mod outcome {
    use case_format::Outcome;

    pub const MISSED: u8 = Outcome::Missed as u8;
    pub const MATCHED: u8 = Outcome::Matched as u8;
    pub const MATCHED_VARIABLE: u8 = Outcome::MatchedVariable as u8;
    pub const ERROR: u8 = Outcome::Error as u8;
}

#[cfg(test)]
mod tests {
    use super::*;
    use case_format::{Item, Reader};

    /// Two rules that share an action, a text that no action has, and two parts that overlap.
    fn odd() -> Case {
        let rule = |id, first, count| Rule {
            present: 1,
            id,
            link: 0,
            first,
            count,
        };
        let msg = |start, len| Action {
            kind: kind::MSG,
            text: Part { start, len },
            ..Action::default()
        };
        let name = Part { start: 1, len: 2 };
        let call = Call {
            phase: 3,
            rules: vec![rule(1, 0, 2), rule(2, 1, 1)],
            outcomes: vec![outcome::MATCHED, outcome::ERROR],
            actions: vec![msg(0, 3), msg(2, 2), msg(9, 0)],
            markers: vec![Marker { name, position: 2 }],
            text: b"abcd unread".to_vec(),
        };
        Case {
            calls: vec![call],
            ..Case::default()
        }
    }

    #[test]
    fn what_is_written_can_be_read() {
        let written = odd().written("odd");
        let text = "case odd\nmode On\nblock-status 403\ncall 3\nrule 1 matched\n  msg \"abc\"\n  msg \"cd\"\n\
                    rule 2 error\n  msg \"cd\"\nmarker \"bc\" 2\nend";
        assert_eq!(written.to_string(), text);
        let mut reader = Reader::new(text.as_bytes());
        assert_eq!(reader.item(), Ok(Some(Item::Case(written))));
    }

    #[test]
    fn what_is_read_is_plain_and_stays() {
        let (odd, read) = (odd(), odd().as_read());
        assert!(!odd.calls[0].is_plain() && read.calls[0].is_plain());
        assert_eq!(read.written("odd"), odd.written("odd"));
        assert_eq!(read.as_read(), read);
    }
}
