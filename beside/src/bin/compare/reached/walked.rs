//! The Rust's walk, made out from the rules that it evaluated.

use beside::case::{kind, Call, Case};
use case_format::{Answer, CallResult, Mode, Stop, Verdict};
use oracle::{CtlDirective, RuleEngineMode};

use crate::sides::{Before, Directives};

/// A closed unit.
pub struct Unit {
    /// The starter first, the closing rule last.
    pub members: Vec<usize>,
    pub mode_before: Mode,
    /// The mode in force after its controls.
    pub mode_after: Mode,
    /// Whether the walk went on after it.
    pub went_on: bool,
}

impl Unit {
    pub fn starter(&self) -> usize {
        self.members[0]
    }

    pub fn closing(&self) -> usize {
        self.members[self.members.len() - 1]
    }
}

/// What became of the chains.
#[derive(Default)]
pub struct Walked {
    pub is_idle: bool,
    pub units: Vec<Unit>,
    /// Rules that were passed as removed, and whether a chain was open: those whose turn it was for certain. After a flow
    /// action none are looked for.
    pub removed: Vec<(usize, bool)>,
    /// Missed rules, and how many members the chain then had that was open.
    pub missed: Vec<(usize, usize)>,
    /// Links that had matched when their chain broke.
    pub lost: Vec<usize>,
    /// The members of the chain that was open at the end, and how many it had at the rule in error.
    pub left_open: Vec<usize>,
    pub open_at_error: usize,
}

struct Walker<'a> {
    call: &'a Call,
    directives: &'a Directives,
    members: Vec<usize>,
    mode: Mode,
    walked: Walked,
}

impl Walked {
    pub fn of(
        case: &Case,
        call: &Call,
        directives: &Directives,
        before: &Before,
        rust: &CallResult,
    ) -> Self {
        let mode = before.mode.unwrap_or(case.mode);
        let is_held = before.allowed || before.stopped;
        let is_refused = matches!(rust.answer, Answer::Refused(_));
        if is_refused || is_held || mode == Mode::Off || call.rules.is_empty() {
            return Self {
                is_idle: true,
                ..Self::default()
            };
        }
        let mut walker = Walker {
            call,
            directives,
            members: Vec::new(),
            mode,
            walked: Self::default(),
        };
        walker.walk(rust);
        walker.walked
    }
}

impl Walker<'_> {
    fn walk(&mut self, rust: &CallResult) {
        // The next index, where no flow action changed it.
        let mut next = Some(0);
        for &(index, verdict) in &rust.visits {
            let index = index as usize;
            self.pass_removed(next, index);
            next = match verdict {
                Verdict::Missed => Some(self.missed(index)),
                Verdict::Error => None,
                _ => self.matched(index),
            };
        }
        if rust.answer != Answer::Done {
            self.walked.open_at_error = self.members.len();
            return;
        }
        if rust.allowed || rust.intervention != Stop::No || self.mode == Mode::Off {
            self.walked.units.last_mut().expect("a unit did it").went_on = false;
            return;
        }
        self.pass_removed(next, self.call.rules.len());
        self.walked.left_open = std::mem::take(&mut self.members);
    }

    /// What lies between the next index and the rule that was evaluated next was removed.
    fn pass_removed(&mut self, from: Option<usize>, to: usize) {
        let mut next = from.unwrap_or(to);
        while next < to {
            self.walked.removed.push((next, !self.members.is_empty()));
            next = match self.call.is_link(next) {
                true => self.break_chain(next),
                false => next + 1,
            };
        }
    }

    fn break_chain(&mut self, index: usize) -> usize {
        self.walked.lost.append(&mut self.members);
        let mut rest = index..self.call.rules.len();
        let closing = rest.find(|at| !self.call.is_link(*at));
        closing.map_or(self.call.rules.len(), |closing| closing + 1)
    }

    fn missed(&mut self, index: usize) -> usize {
        self.walked.missed.push((index, self.members.len()));
        match self.call.is_link(index) || !self.members.is_empty() {
            true => self.break_chain(index),
            false => index + 1,
        }
    }

    fn matched(&mut self, index: usize) -> Option<usize> {
        self.members.push(index);
        if self.call.is_link(index) {
            return Some(index + 1);
        }
        let members = std::mem::take(&mut self.members);
        let mode_before = self.mode;
        for &member in &members {
            self.apply_modes(member);
        }
        let mut starter = self.call.actions_of(members[0]).iter();
        let flows = starter.any(|action| (kind::CHAIN..=kind::MULTI_MATCH).contains(&action.kind));
        self.walked.units.push(Unit {
            members,
            mode_before,
            mode_after: self.mode,
            went_on: true,
        });
        (!flows).then_some(index + 1)
    }

    fn apply_modes(&mut self, member: usize) {
        for directive in self.directives[self.call.places_of(member)]
            .iter()
            .flatten()
        {
            if let CtlDirective::RuleEngine(set) = directive {
                self.mode = match set {
                    RuleEngineMode::On => Mode::On,
                    RuleEngineMode::DetectionOnly => Mode::DetectionOnly,
                    RuleEngineMode::Off => Mode::Off,
                };
            }
        }
    }
}
