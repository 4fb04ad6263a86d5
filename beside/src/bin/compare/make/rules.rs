//! Random rules with their actions.

use beside::case::{kind, outcome};
use beside::random::Random;
use tivembo::{Action, Part, Rule};

use super::texts::Texts;
use super::{ctl, id, Mood};

const DISRUPTIVE: [u64; 6] = [
    kind::DENY,
    kind::BLOCK,
    kind::PASS,
    kind::ALLOW,
    kind::REDIRECT,
    kind::DROP,
];
const FLOW: [u64; 6] = [
    kind::SKIP,
    kind::SKIP,
    kind::SKIP_AFTER,
    kind::SKIP_AFTER,
    kind::CHAIN,
    kind::MULTI_MATCH,
];
const METADATA: [u64; 7] = [
    kind::MSG,
    kind::LOGDATA,
    kind::REV,
    kind::VER,
    kind::SEVERITY,
    kind::MATURITY,
    kind::ACCURACY,
];

/// The rules of a call, with their actions.
#[derive(Default)]
pub struct Rules {
    pub rules: Vec<Rule>,
    pub outcomes: Vec<u8>,
    pub actions: Vec<Action>,
}

/// What actions are made with.
struct Maker<'a> {
    random: &'a mut Random,
    mood: &'a Mood,
    texts: &'a mut Texts,
    names: &'a [Part],
}

impl Rules {
    pub fn make(random: &mut Random, mood: &Mood, texts: &mut Texts, names: &[Part]) -> Self {
        let mut maker = Maker {
            random,
            mood,
            texts,
            names,
        };
        let mut made = Self::default();
        for _ in 0..mood.rules {
            let id = (!maker.often(15)).then(|| id(maker.random));
            let first = made.actions.len();
            maker.add_actions(&mut made.actions, id);
            made.rules.push(Rule {
                present: u64::from(id.is_some()),
                // An absent id's number means nothing.
                id: id.unwrap_or_else(|| maker.nothing()),
                link: u64::from(maker.often(mood.links)),
                first: first as u64,
                count: (made.actions.len() - first) as u64,
            });
            made.outcomes.push(maker.outcome());
            if maker.often(4) {
                let unowned = maker.any_action();
                made.actions.push(unowned);
            }
        }
        maker.share(&mut made);
        made
    }
}

impl Maker<'_> {
    fn often(&mut self, of_100: usize) -> bool {
        self.random.below(100) < of_100
    }

    fn outcome(&mut self) -> u8 {
        match self.random.below(100) {
            at if at < self.mood.errors => outcome::ERROR,
            at if at < self.mood.errors + self.mood.missed => outcome::MISSED,
            at if at % 4 == 0 => outcome::MATCHED,
            _ => outcome::MATCHED_VARIABLE,
        }
    }

    /// A number where none is looked at.
    fn nothing(&mut self) -> u64 {
        self.random.pick(&[0, 0, 1, u64::MAX])
    }

    fn add_actions(&mut self, actions: &mut Vec<Action>, id: Option<u64>) {
        let first = actions.len();
        self.add_ids(actions, id);
        let mood = self.mood;
        for (of_100, kinds) in [
            (mood.stops, &DISRUPTIVE[..]),
            (mood.flows, &FLOW),
            (30, &METADATA),
        ] {
            if self.often(of_100) {
                self.add_some(actions, kinds);
            }
        }
        if self.often(mood.ctls) {
            self.add_some(actions, &[kind::CTL]);
        }
        if self.often(8) {
            self.add_some(actions, &[kind::OTHER, kind::STATUS]);
        }
        if self.often(50) {
            for at in (first + 1..actions.len()).rev() {
                actions.swap(at, first + self.random.below(at - first + 1));
            }
        }
    }

    /// Mostly the rule's own id, as every rule of 01's cases has it.
    fn add_ids(&mut self, actions: &mut Vec<Action>, own: Option<u64>) {
        let number = match own {
            Some(own) if self.often(75) => Some(own),
            _ => self.often(30).then(|| id(self.random)),
        };
        let other = self.often(6).then(|| id(self.random));
        for number in number.into_iter().chain(other) {
            actions.push(Action {
                kind: kind::ID,
                number,
                ..Action::default()
            });
        }
    }

    fn add_some(&mut self, actions: &mut Vec<Action>, kinds: &[u64]) {
        for _ in 0..self.random.pick(&[1, 1, 1, 2, 3]) {
            let kind = self.random.pick(kinds);
            actions.push(self.action(kind));
        }
    }

    fn any_action(&mut self) -> Action {
        let kind = self.random.below(21) as u64;
        self.action(kind)
    }

    fn action(&mut self, kind: u64) -> Action {
        let (text, value) = self.parts(kind);
        Action {
            kind,
            number: self.number(kind),
            text,
            value,
        }
    }

    fn number(&mut self, kind: u64) -> u64 {
        let random = &mut *self.random;
        match kind {
            kind::SKIP => random.pick(&[0, 1, 1, 1, 2, 2, 3, 4, 7, 4_294_967_295]),
            kind::ID => id(random),
            kind::SEVERITY | kind::MATURITY | kind::ACCURACY => random.pick(&[0, 1, 2, 7, 9, 255]),
            kind::STATUS => random.pick(&[0, 200, 406, 65_535]),
            _ => self.nothing(),
        }
    }

    /// The texts that the kind has, and any parts in their place where it has none.
    fn parts(&mut self, kind: u64) -> (Part, Part) {
        match kind {
            kind::CTL => {
                let (name, value) = ctl::ctl(self.random);
                (
                    self.texts.put(self.random, &name),
                    self.texts.put(self.random, &value),
                )
            }
            kind::SKIP_AFTER => (self.marker_name(), self.unread()),
            kind::REDIRECT | kind::MSG | kind::LOGDATA | kind::REV | kind::VER => {
                (self.texts.said(self.random), self.unread())
            }
            _ => (self.unread(), self.unread()),
        }
    }

    /// Mostly one that there is, at the marker's own place or elsewhere.
    fn marker_name(&mut self) -> Part {
        if self.names.is_empty() || self.often(40) {
            return self.texts.name(self.random);
        }
        let name = self.random.pick(self.names);
        if self.often(70) {
            return name;
        }
        let bytes = name
            .of(&self.texts.text)
            .expect("it was put there")
            .to_vec();
        self.texts.put(self.random, &bytes)
    }

    fn unread(&mut self) -> Part {
        match self.often(25) {
            true => self.texts.any(self.random),
            false => Part::default(),
        }
    }

    /// Points some rules at actions of others.
    fn share(&mut self, made: &mut Rules) {
        for rule in &mut made.rules {
            if self.often(self.mood.shared) {
                let first = self.random.below(made.actions.len() + 1);
                let longest = (made.actions.len() - first).min(10);
                rule.first = first as u64;
                rule.count = self.random.below(longest + 1) as u64;
            }
        }
    }
}
