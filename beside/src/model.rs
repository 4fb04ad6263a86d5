//! The phase call as the papers tell it, plain and slow, for a third opinion. It shares no code with the proved library or
//! with the Rust. With a [`Reading`] it reads them wrongly in one place, so that the comparison can be seen to fail.

mod directive;
mod ranges;
mod reading;
mod unit;

use case_format::{
    Answer, CallResult, DirectiveAnswer as Directive, Entry, Mode, Stop, Unsupported, Verdict,
};

use crate::case::{outcome, Call, Case};

pub use directive::{read as read_directive, trimmed};
pub use reading::{Reading, READINGS};
pub use unit::is_ctl;

use ranges::{merged, with_smallest_ends};
use reading::Reading as R;

/// "more than 256 ranges, more than 64 targets"
const MOST_RANGES: usize = 256;
const MOST_TARGETS: usize = 64;

/// A transaction and the rule set's mode and default status.
pub struct Model {
    reading: Option<Reading>,
    ruleset_mode: Mode,
    status: u64,
    held: Entry,
    /// How many targets are held.
    targets: usize,
}

impl Model {
    /// The transaction of a case before its first call.
    pub fn new(case: &Case, reading: Option<Reading>) -> Self {
        Self {
            reading,
            ruleset_mode: case.mode,
            status: u64::from(case.status),
            held: case.entry.clone(),
            targets: 0,
        }
    }

    /// One phase call.
    pub fn call(&mut self, call: &Call) -> CallResult {
        let was_stopped = self.held.stopped;
        let mut found = match self.refusal(call) {
            Some(number) => CallResult {
                answer: Answer::Refused(number),
                ..CallResult::empty(call.phase)
            },
            None => self.accepted(call),
        };
        if was_stopped {
            found.intervention = Stop::Held;
        }
        let held = &self.held;
        (found.mode, found.body_access) = (held.mode, held.body_access);
        found.body_processor = held.body_processor;
        found.ranges = held.ranges.clone();
        found.allowed = held.allowed;
        found
    }

    /// A call that is not refused.
    fn accepted(&mut self, call: &Call) -> CallResult {
        let is_idle = self.held.stopped || self.held.allowed;
        let before = self.held.ranges.len();
        let mut walk = Walk {
            model: self,
            call,
            members: Vec::new(),
            found: CallResult::empty(call.phase),
        };
        if !is_idle {
            walk.run();
        }
        let found = walk.found;
        if self.held.ranges.len() > before {
            self.held.ranges = self.merged(&self.held.ranges);
        }
        self.targets += found.targets.len();
        found
    }

    /// The refusals that a well-formed call can meet: 3 with "ranges not in this form or with start above end", then 8, "the
    /// merged ranges held plus the phase's own", and 9.
    fn refusal(&self, call: &Call) -> Option<u64> {
        let held = &self.held.ranges;
        if merged(held, self.reads(R::ThreeLetsTouchingIn)) != *held {
            return Some(3);
        }
        let (own, targets) = written(call);
        let count = match self.reads(R::EightAfterMerging) {
            true => merged(&[&held[..], &own].concat(), false).len(),
            false => held.len() + own.len(),
        };
        if count > MOST_RANGES {
            return Some(8);
        }
        (self.targets + targets > MOST_TARGETS).then_some(9)
    }

    /// A plain list of all ranges accepted as it is held.
    fn merged(&self, plain: &[(u64, u64)]) -> Vec<(u64, u64)> {
        match self.reads(R::SmallerEnd) {
            true => with_smallest_ends(plain),
            false => merged(plain, self.reads(R::TouchingApart)),
        }
    }

    fn reads(&self, reading: Reading) -> bool {
        self.reading == Some(reading)
    }

    fn mode(&self) -> Mode {
        self.held.mode.unwrap_or(self.ruleset_mode)
    }

    /// "Both ends of a range are removed", "A rule without an id is never removed".
    fn is_removed(&self, id: Option<u64>) -> bool {
        let short = self.reads(R::RangeShort);
        let covers = |id: u64, &(start, end): &(u64, u64)| {
            start <= id && (id < end || id == end && (start == end || !short))
        };
        id.is_some_and(|id| self.held.ranges.iter().any(|range| covers(id, range)))
    }
}

/// The ranges of all supported ruleRemoveById actions and how many targets there are, "counted rule by rule".
fn written(call: &Call) -> (Vec<(u64, u64)>, usize) {
    let (mut ranges, mut targets) = (Vec::new(), 0);
    let of_rules = (0..call.rules.len()).flat_map(|index| call.actions_of(index));
    for control in of_rules.filter(|action| unit::is_ctl(action)) {
        match read_directive(call.text(control.text), call.text(control.value)) {
            Directive::Ranges(more) => ranges.extend(more),
            Directive::Target(..) => targets += 1,
            _ => {}
        }
    }
    (ranges, targets)
}

/// One walk over the rules of a call.
struct Walk<'a> {
    model: &'a mut Model,
    call: &'a Call,
    /// Of the open chain.
    members: Vec<usize>,
    found: CallResult,
}

impl Walk<'_> {
    fn run(&mut self) {
        let mut next = Some(0);
        while let Some(index) = next {
            if index >= self.call.rules.len() || self.model.mode() == Mode::Off {
                return;
            }
            next = self.visit(index);
        }
    }

    /// Visits a rule and gives the next index; none where the visit is the last.
    fn visit(&mut self, index: usize) -> Option<usize> {
        if self.model.is_removed(self.call.id_of(index)) {
            self.note(index, Verdict::Removed);
            return Some(self.removed(index));
        }
        match self.call.outcomes[index] {
            outcome::ERROR => {
                self.note(index, Verdict::Error);
                self.found.answer = Answer::RuleError(index as u64);
                None
            }
            outcome::MISSED => {
                self.note(index, Verdict::Missed);
                Some(self.missed(index))
            }
            _ => {
                self.note(index, Verdict::Matched);
                self.matched(index)
            }
        }
    }

    fn note(&mut self, index: usize, verdict: Verdict) {
        self.found.visits.push((index as u64, verdict));
    }

    /// "A removed link breaks the open chain and passes everything through the chain's closing rule. A removed rule that is
    /// not a link is passed alone".
    fn removed(&mut self, index: usize) -> usize {
        if self.model.reads(R::RemovedCloserBreaks) {
            self.members.clear();
        }
        if !self.call.is_link(index) || self.model.reads(R::RemovedLinkAlone) {
            return index + 1;
        }
        self.break_chain(index)
    }

    /// "A missed rule, where it is a link or a chain is open, breaks the chain and likewise passes its rest."
    fn missed(&mut self, index: usize) -> usize {
        if !self.call.is_link(index) && self.members.is_empty() {
            return index + 1;
        }
        self.break_chain(index)
    }

    /// The index after the closing rule of the chain that a rule is in.
    fn break_chain(&mut self, index: usize) -> usize {
        self.members.clear();
        let rest = index..self.call.rules.len();
        let closing = rest.into_iter().find(|at| !self.call.is_link(*at));
        closing.map_or(self.call.rules.len(), |closing| closing + 1)
    }

    /// "A matched link holds its controls and waits. A matched rule that is not a link closes the unit".
    fn matched(&mut self, index: usize) -> Option<usize> {
        self.members.push(index);
        if !self.call.is_link(index) {
            return self.close();
        }
        if self.model.reads(R::LinkControlsEarly) {
            self.apply_controls(index, self.members[0]);
        }
        Some(index + 1)
    }

    /// Applies the controls of a member of the unit that begins with a starter. 02: "the rule index and reason of the first
    /// unsupported directive in its closed units".
    fn apply_controls(&mut self, member: usize, starter: usize) {
        let call = self.call;
        let is_last_told = self.model.reads(R::LastUnsupported);
        let rule = match self.model.reads(R::UnsupportedAtStarter) {
            true => starter as u64,
            false => member as u64,
        };
        let (held, found) = (&mut self.model.held, &mut self.found);
        for control in call.actions_of(member).iter().filter(|a| unit::is_ctl(a)) {
            match read_directive(call.text(control.text), call.text(control.value)) {
                Directive::Engine(mode) => held.mode = Some(mode),
                Directive::BodyAccess(on) => held.body_access = Some(on),
                Directive::BodyProcessor(name) => held.body_processor = Some(name),
                Directive::Ranges(ranges) => held.ranges.extend(ranges),
                Directive::Target(id, target) => found.targets.push((id, target)),
                Directive::Unsupported(reason) => {
                    if found.unsupported.is_none() || is_last_told {
                        found.unsupported = Some(Unsupported { rule, reason });
                    }
                }
                Directive::Refused(_) => unreachable!("no directive is refused here"),
            }
        }
    }
}
