//! What happened at each rule of a call, in words. The verdicts are the journal's; the words say what follows from them.

use case_format::text::range;
use tivembo::{read_directive, Act, Answer, Directive, Mode, Phase, Records, Transaction, Verdict};

use crate::lent;
use crate::run::Walked;
use crate::show::plain;

/// A rule's verdict, none where it was passed, and the words after it.
pub struct Seen {
    pub verdict: Option<Verdict>,
    pub words: String,
    /// Whether it is a member of a closed unit, so that its directives acted.
    pub closed: bool,
}

/// One for each rule of the call.
pub fn story(walked: &Walked, phase: &Phase) -> Vec<Seen> {
    let mut story = Story {
        walked,
        phase,
        records: walked.rules.records(),
        held: Transaction::new(),
        open: Vec::new(),
        closed: Vec::new(),
        passing: why_idle(walked),
    };
    story.hold(&walked.before);
    let mut visits = phase.visits().peekable();
    let rules = 0..walked.call.rules.len();
    let seen = rules.map(|index| match visits.next_if(|visit| visit.0 == index) {
        None => story.passed(),
        Some((_, verdict)) => {
            let words = story.visit(index, verdict, visits.peek().is_none());
            Seen {
                verdict: Some(verdict),
                words,
                closed: false,
            }
        }
    });
    let mut seen: Vec<Seen> = seen.collect();
    // Whether a link's unit closes is known at a later rule.
    for index in story.closed {
        seen[index].closed = true;
    }
    seen
}

/// Why a call without a visit had none.
fn why_idle(walked: &Walked) -> String {
    let why = match (walked.allowed, walked.held) {
        (true, _) => "the request is allowed already",
        (_, true) => "the request is stopped already",
        _ => "mode Off",
    };
    why.to_string()
}

struct Story<'a> {
    walked: &'a Walked<'a>,
    phase: &'a Phase<'a>,
    records: Records<'a>,
    /// Has the ranges that are held at the visit.
    held: Transaction,
    /// The matched links that wait for their closing rule.
    open: Vec<usize>,
    /// The members of closed units.
    closed: Vec<usize>,
    /// Why the rules after the last visit are passed.
    passing: String,
}

impl Story<'_> {
    fn passed(&self) -> Seen {
        Seen {
            verdict: None,
            words: self.passing.clone(),
            closed: false,
        }
    }

    /// The words of a visit; they also settle why the next rules are passed, if they are.
    fn visit(&mut self, index: usize, verdict: Verdict, is_last: bool) -> String {
        let link = self.walked.call.rules[index].link;
        let words = match verdict {
            Verdict::Missed => self.broken(index, link),
            Verdict::Removed => self.removed(index, link),
            Verdict::Matched if link => self.waits(index, is_last),
            Verdict::Matched => self.closes(index, is_last),
            Verdict::Error => "the phase ends here".to_string(),
        };
        if is_last {
            self.passing = self.why_ended(index).unwrap_or(self.passing.clone());
        }
        words
    }

    fn broken(&mut self, index: usize, link: bool) -> String {
        let had = !std::mem::take(&mut self.open).is_empty();
        self.passing = format!("rest of the chain broken at {index}");
        let words = match (had, link) {
            (true, _) => "breaks the chain",
            (false, true) => "a link: its chain is passed",
            (false, false) => "",
        };
        words.to_string()
    }

    /// Has more ranges held. A call that is not refused has places for all of them.
    fn hold(&mut self, ranges: &[(u64, u64)]) {
        for (start, end) in ranges {
            let added = self.held.remove_range(*start, *end);
            added.expect("the call was not refused");
        }
    }

    /// The ranges that a rule's directives add.
    fn removals(&self, index: usize) -> Vec<(u64, u64)> {
        let actions = self.records.actions_of(&self.records.rules[index]);
        let removals = actions.filter_map(|act| match act {
            Act::Ctl(name, value) => match read_directive(name, value) {
                Ok(Directive::RuleRemoveById(ranges)) => Some(ranges),
                _ => None,
            },
            _ => None,
        });
        removals.flatten().collect()
    }

    /// Names the range, as it is held at the visit, that has the id.
    fn removed(&mut self, index: usize, link: bool) -> String {
        let id = self.walked.call.rules[index].id;
        let has = |range: &(u64, u64)| id.is_some_and(|id| range.0 <= id && id <= range.1);
        let held = self.held.controls().ranges().find(has);
        let chain = match (link, self.open.is_empty()) {
            (true, _) => self.broken(index, link),
            (false, true) => String::new(),
            (false, false) => "the chain stays open".to_string(),
        };
        let held = held.map(|held| format!("in range {}", range(&held)));
        let parts = held.into_iter().chain(Some(chain));
        let told: Vec<String> = parts.filter(|part| !part.is_empty()).collect();
        told.join(", ")
    }

    fn waits(&mut self, index: usize, is_last: bool) -> String {
        self.open.push(index);
        let starter = if self.open.len() == 1 {
            ", starter"
        } else {
            ""
        };
        let open = if is_last {
            "; the chain stays open and gives nothing"
        } else {
            ""
        };
        format!("waits{starter}{open}")
    }

    fn closes(&mut self, index: usize, is_last: bool) -> String {
        self.open.push(index);
        let unit = std::mem::take(&mut self.open);
        self.passing = self.flow(unit[0], index);
        let members: Vec<String> = unit.iter().map(usize::to_string).collect();
        let effect = self.effect(unit[0], is_last);
        for member in &unit {
            self.hold(&self.removals(*member));
        }
        self.closed.extend(unit);
        format!("closes unit {}{effect}", members.join(" "))
    }

    /// What the starter's last disruptive action does.
    fn effect(&self, starter: usize, is_last: bool) -> String {
        if is_last && self.phase.intervention().is_some() {
            return ", stops".to_string();
        }
        if is_last && self.phase.allows() {
            return ", allows".to_string();
        }
        match self.last(starter, 1..=6) {
            Some(act @ (Act::Deny | Act::Block | Act::Redirect(_) | Act::Drop)) => {
                format!(", {} does not act", act.name())
            }
            _ => String::new(),
        }
    }

    /// Where the starter's last flow action goes on, after the closing rule.
    fn flow(&self, starter: usize, closing: usize) -> String {
        match self.last(starter, 7..=10) {
            Some(Act::Skip(count)) => format!("skip {count} at {closing}"),
            Some(Act::SkipAfter(name)) => self.jump(name, closing),
            _ => String::new(),
        }
    }

    fn jump(&self, name: &[u8], closing: usize) -> String {
        let after = closing as u64 + 1;
        let markers = self.walked.call.markers.iter().rev();
        let name_of = plain(name);
        let named = markers.into_iter().find(|marker| marker.name == name);
        match named.map(|marker| marker.position) {
            None => format!("no marker {name_of}: the rest is passed"),
            Some(position) if position > after => {
                format!("jump to marker {name_of} at {position}")
            }
            Some(position) => {
                format!("no usable marker: {name_of} at {position} is not greater than {after}")
            }
        }
    }

    /// A rule's last action with a kind among these.
    fn last(&self, index: usize, kinds: std::ops::RangeInclusive<u64>) -> Option<Act<'_>> {
        let actions = self.records.actions_of(&self.records.rules[index]);
        actions.filter(|act| kinds.contains(&act.fields().0)).last()
    }

    /// Why the phase ended at its last visit, if that visit ended it.
    fn why_ended(&self, index: usize) -> Option<String> {
        let controls = self.walked.transaction.controls();
        if self.phase.answer() != Answer::CarriedThrough {
            return Some(format!("rule error at {index}"));
        }
        if self.phase.intervention().is_some() {
            return Some(format!("stopped at {index}"));
        }
        if self.phase.allows() {
            return Some(format!("allow at {index}"));
        }
        let off = controls.engine_mode(lent::mode(self.walked.case.mode)) == Ok(Mode::Off);
        off.then(|| "mode Off".to_string())
    }
}
