//! Rule sets: the rules, actions and markers of one phase, with their texts.

use std::collections::HashMap;

use crate::exported;
use crate::limits::Broken;
use crate::records::{Action, HostNumber, Marker, Part, Rule};
use crate::{Act, PassedOver, Refusal};

/// The rules of one phase, with their actions, markers and texts. It is made once, with a [`Builder`], and lent to every
/// call of that phase.
#[derive(Debug, Clone, Default, PartialEq, Eq)]
pub struct RuleSet {
    rules: Vec<Rule>,
    actions: Vec<Action>,
    markers: Vec<Marker>,
    text: Vec<u8>,
}

impl RuleSet {
    /// An empty builder.
    pub fn builder() -> Builder {
        Builder::default()
    }

    /// A rule set of records as they are. Nothing is looked at: [`Records::check`] says which limit they break, and a call
    /// with such a rule set is refused.
    pub fn from_records(
        rules: Vec<Rule>,
        actions: Vec<Action>,
        markers: Vec<Marker>,
        text: Vec<u8>,
    ) -> Self {
        Self {
            rules,
            actions,
            markers,
            text,
        }
    }

    /// The records, lent.
    pub fn records(&self) -> Records<'_> {
        Records {
            rules: &self.rules,
            actions: &self.actions,
            markers: &self.markers,
            text: &self.text,
        }
    }

    /// Where a `skipAfter` of this name leads: the number of rules before the latest marker of the name, or none where no
    /// marker has it. Names compare byte for byte.
    ///
    /// ```
    /// use tivembo::{Act, RuleSet};
    ///
    /// let mut rules = RuleSet::builder();
    /// rules.rule(Some(30), false, &[Act::Id(30), Act::SkipAfter(b"END")]);
    /// rules.rule(Some(31), false, &[Act::Id(31), Act::Deny]);
    /// rules.marker(b"END");
    /// let rules = rules.build()?;
    /// assert_eq!(rules.marker_position(b"END")?, Some(2));
    /// assert_eq!(rules.marker_position(b"end")?, None);
    /// # Ok::<(), Box<dyn std::error::Error>>(())
    /// ```
    ///
    /// # Errors
    ///
    /// A rule set that [`Builder::build`] made is never refused. Of others, [`Records::marker_position`] says which are.
    pub fn marker_position(&self, name: &[u8]) -> Result<Option<u64>, Refusal> {
        self.records().marker_position(name)
    }
}

/// The records of a rule set, lent: they go over to a call without a copy. A gateway that keeps records itself lends
/// them to [`Transaction::run_records`](crate::Transaction::run_records).
#[derive(Debug, Clone, Copy, Default)]
pub struct Records<'a> {
    /// The rules of the phase.
    pub rules: &'a [Rule],
    /// The rules' actions.
    pub actions: &'a [Action],
    /// The markers, in record order.
    pub markers: &'a [Marker],
    /// The text that actions and markers point into.
    pub text: &'a [u8],
}

impl<'a> Records<'a> {
    /// The action at a position of the list, none where there is none, or where its record is no action.
    pub fn action(&self, position: u64) -> Option<Act<'a>> {
        let record = self.actions.get(usize::try_from(position).ok()?)?;
        Act::from_record(record, self.text)
    }

    /// The actions of a rule, in order.
    pub fn actions_of(self, rule: &Rule) -> impl Iterator<Item = Act<'a>> {
        let positions = rule.first..rule.first.saturating_add(rule.count);
        positions.map_while(move |position| self.action(position))
    }

    /// The unsupported directives of the rule with this index, in the order of its actions: whenever its unit closes they
    /// are passed over. This asks the proved directive reader; no call is needed, so a gateway can warn of them when it
    /// reads its rules.
    ///
    /// ```
    /// use tivembo::{Act, RuleSet};
    ///
    /// let mut builder = RuleSet::builder();
    /// builder.rule(Some(20), false, &[Act::Id(20), Act::Ctl(b"ruleEngine", b"Of")]);
    /// let rules = builder.build()?;
    /// let passed: Vec<String> = rules.records().unsupported_in(0).map(|it| it.to_string()).collect();
    /// let why = "ruleEngine takes one of the modes On, DetectionOnly and Off, as in ruleEngine=DetectionOnly";
    /// assert_eq!(passed, [format!("ruleEngine=Of: {why}")]);
    /// # Ok::<(), tivembo::Broken>(())
    /// ```
    pub fn unsupported_in(self, rule: usize) -> impl Iterator<Item = PassedOver<'a>> {
        let rule = self.rules.get(rule).copied().unwrap_or_default();
        self.actions_of(&rule).filter_map(PassedOver::of)
    }

    /// Where a `skipAfter` of this name leads, as [`RuleSet::marker_position`] says. This is the proved question.
    ///
    /// # Errors
    ///
    /// There are more than 512 rules, 256 markers or 65,536 bytes of text (2), a marker's name is not inside the text or its
    /// position is above the number of rules (5), or the text has a byte of 80 (hexadecimal) or more (6).
    pub fn marker_position(&self, name: &[u8]) -> Result<Option<u64>, Refusal> {
        let rules = self.rules.len() as u64;
        let found = exported::marker_position(self.markers, rules, self.text, name);
        let position = HostNumber {
            present: found.present,
            value: found.position,
        };
        Refusal::unless(found.answer, position.get())
    }
}

/// Adds the rules and markers of a phase in their order. Each text is held once, whatever number of actions has it.
///
/// ```
/// use tivembo::{Act, RuleSet};
///
/// let mut rules = RuleSet::builder();
/// rules.rule(Some(30), false, &[Act::Id(30), Act::SkipAfter(b"END")]);
/// rules.rule(Some(31), false, &[Act::Id(31), Act::Deny, Act::Msg(b"no pallet has this number")]);
/// rules.marker(b"END");
/// let rules = rules.build()?;
/// assert_eq!(rules.records().markers[0].position, 2);
/// # Ok::<(), tivembo::Broken>(())
/// ```
#[derive(Debug, Clone, Default)]
pub struct Builder {
    set: RuleSet,
    parts: HashMap<Vec<u8>, Part>,
}

impl Builder {
    /// Adds a rule after the others: its id or none, whether it is a link, and its actions.
    pub fn rule(&mut self, id: Option<u64>, link: bool, actions: &[Act<'_>]) -> &mut Self {
        self.set.rules.push(Rule {
            present: u64::from(id.is_some()),
            id: id.unwrap_or(0),
            link: u64::from(link),
            first: self.set.actions.len() as u64,
            count: actions.len() as u64,
        });
        for action in actions {
            let (kind, number, text, value) = action.fields();
            let (text, value) = (self.part(text), self.part(value));
            self.set.actions.push(Action {
                kind,
                number,
                text,
                value,
            });
        }
        self
    }

    /// Adds a marker that stands after the rules added so far.
    pub fn marker(&mut self, name: &[u8]) -> &mut Self {
        self.marker_at(name, self.set.rules.len() as u64)
    }

    /// Adds a marker with the number of rules before it. For a repeated name the latest record decides.
    pub fn marker_at(&mut self, name: &[u8], position: u64) -> &mut Self {
        let name = self.part(name);
        self.set.markers.push(Marker { name, position });
        self
    }

    /// The rule set, or which limit it breaks, and where. A rule set without such a fault can still be refused together
    /// with what a transaction holds (8 and 9) or with other outcomes than its rules (4).
    ///
    /// ```
    /// use tivembo::{Act, RuleSet};
    ///
    /// let mut rules = RuleSet::builder();
    /// rules.rule(Some(10), false, &[Act::Id(10), Act::Severity(256)]);
    /// let broken = rules.build().unwrap_err();
    /// assert_eq!(broken.limit.number(), 5);
    /// assert_eq!(broken.to_string(), "action 1 (severity) of rule 0: the number is above 255");
    /// ```
    pub fn build(self) -> Result<RuleSet, Broken> {
        self.set.records().check()?;
        Ok(self.set)
    }

    /// The rule set as it was given, whatever it breaks: then every call with it is refused.
    pub fn build_as_given(self) -> RuleSet {
        self.set
    }

    fn part(&mut self, text: &[u8]) -> Part {
        if let Some(part) = self.parts.get(text) {
            return *part;
        }
        let part = Part {
            start: self.set.text.len() as u64,
            len: text.len() as u64,
        };
        self.set.text.extend_from_slice(text);
        self.parts.insert(text.to_vec(), part);
        part
    }
}
