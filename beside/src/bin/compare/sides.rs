//! All sides of a case, and in what they differ.

use beside::case::{Call, Case};
use beside::found::differing;
use beside::model::{Model, Reading};
use beside::ours::Ours;
use case_format::{Answer, BodyProcessor, CallResult, Mode, Stop, Verdict};
use oracle::{CtlDirective, Run};

/// 01's refusals 8 and 9.
pub const MOST_RANGES: usize = 256;
const MOST_TARGETS: usize = 64;

/// Three transactions that stand alike.
pub struct Sides {
    rust: Run,
    ours: Ours,
    model: Model,
    is_planted: bool,
    before: Before,
}

/// What the Rust held before a call, as far as its results tell.
#[derive(Debug, Clone, Default)]
pub struct Before {
    pub calls: usize,
    /// Of the call before, 0 where there is none.
    pub phase: u64,
    pub mode: Option<Mode>,
    pub body_access: Option<bool>,
    pub body_processor: Option<BodyProcessor>,
    /// In the merged form, unless the case begins with others.
    pub ranges: Vec<(u64, u64)>,
    pub targets: usize,
    pub allowed: bool,
    pub stopped: bool,
    /// The unsupported directives that earlier calls told, with their values.
    pub told: Vec<(String, String)>,
}

/// One call on all sides.
pub struct Ran {
    pub before: Before,
    /// The Rust's; of a refused call what the papers say, since the Rust refuses none.
    pub rust: CallResult,
    /// The ranges as the Rust then holds them, and how many of them it held before.
    pub plain: Vec<(u64, u64)>,
    pub plain_before: usize,
    /// The proved library, or what was planted in its place.
    pub other: CallResult,
    /// The model, where it is not what was planted.
    pub model: Option<CallResult>,
    /// In what they differ, as sentences.
    pub differing: Vec<String>,
}

impl Ran {
    pub fn is_refused(&self) -> bool {
        matches!(self.rust.answer, Answer::Refused(_))
    }
}

/// What the published reader makes of each action, none where it is no ctl.
pub type Directives = Vec<Option<CtlDirective>>;

pub fn directives(call: &Call) -> Directives {
    let read = |action| {
        let is_ctl = beside::model::is_ctl(action);
        is_ctl.then(|| oracle::directive(call.text(action.text), call.text(action.value)))
    };
    call.actions.iter().map(read).collect()
}

/// The ranges of all rules' supported ruleRemoveById actions as written, and how many targets they have, "counted rule by rule".
pub fn written(call: &Call, directives: &Directives) -> (Vec<(u64, u64)>, usize) {
    let (mut ranges, mut targets) = (Vec::new(), 0);
    for index in 0..call.rules.len() {
        for directive in directives[call.places_of(index)].iter().flatten() {
            match directive {
                CtlDirective::RuleRemoveById(added) => {
                    ranges.extend(added.iter().map(|range| range.ends()));
                }
                CtlDirective::RuleRemoveTargetById { .. } => targets += 1,
                _ => {}
            }
        }
    }
    (ranges, targets)
}

/// Whether ranges are in the form in which 02 has them held.
fn is_merged(ranges: &[(u64, u64)]) -> bool {
    let is_before = |one: (u64, u64), next: (u64, u64)| one.1 < next.0 && next.0 - one.1 > 1;
    let rises = ranges.windows(2).all(|two| is_before(two[0], two[1]));
    rises && ranges.iter().all(|(start, end)| start <= end)
}

/// The unsupported directive that a call told, with its value: the first one of the rule that it named.
pub fn told(call: &Call, directives: &Directives, rust: &CallResult) -> Option<(String, String)> {
    let rule = rust.unsupported?.rule as usize;
    let mut of_rule = directives[call.places_of(rule)].iter().flatten();
    of_rule.find_map(|it| match it {
        CtlDirective::Unsupported {
            directive, value, ..
        } => Some((directive.clone(), value.clone())),
        _ => None,
    })
}

impl Sides {
    pub fn new(case: &Case, planted: Option<Reading>) -> Self {
        let entry = &case.entry;
        Self {
            rust: Run::new(case.mode, case.status.into(), entry),
            ours: Ours::new(case),
            model: Model::new(case, planted),
            is_planted: planted.is_some(),
            before: Before {
                calls: 0,
                phase: 0,
                mode: entry.mode,
                body_access: entry.body_access,
                body_processor: entry.body_processor,
                ranges: entry.ranges.clone(),
                targets: 0,
                allowed: entry.allowed,
                stopped: entry.stopped,
                told: Vec::new(),
            },
        }
    }

    /// The number with which the papers turn a call away that is well-formed: 3 for the form of the ranges held, 8 or 9.
    fn refusal(&self, call: &Call, directives: &Directives) -> Option<u64> {
        let held = &self.before;
        if !is_merged(&held.ranges) {
            return Some(3);
        }
        let (ranges, targets) = written(call, directives);
        if held.ranges.len() + ranges.len() > MOST_RANGES {
            return Some(8);
        }
        (held.targets + targets > MOST_TARGETS).then_some(9)
    }

    /// What the papers say of a refused call: everything is as it was.
    fn refused(&self, phase: u64, number: u64) -> CallResult {
        let held = &self.before;
        CallResult {
            answer: Answer::Refused(number),
            mode: held.mode,
            body_access: held.body_access,
            body_processor: held.body_processor,
            ranges: held.ranges.clone(),
            allowed: held.allowed,
            intervention: if held.stopped { Stop::Held } else { Stop::No },
            ..CallResult::empty(phase)
        }
    }

    /// Makes the call on all sides. The Rust is not asked for one that the papers refuse.
    pub fn call(&mut self, call: &Call, directives: &Directives) -> Ran {
        let plain_before = self.rust.plain_ranges().len();
        let rust = match self.refusal(call, directives) {
            None => self.rust.call(&call.written()),
            Some(number) => self.refused(call.phase, number),
        };
        let plain = self.rust.plain_ranges();
        let model = self.model.call(call);
        let (other, model, differing) = if self.is_planted {
            let differing = named("", differing(&rust, &model));
            (model, None, differing)
        } else {
            let (ours, faults) = self.ours.call(call, plain.len() > plain_before);
            let differing = self.differing(call, &rust, &model, &ours, faults);
            (ours, Some(model), differing)
        };
        let after = self.after(call, directives, &rust);
        Ran {
            before: std::mem::replace(&mut self.before, after),
            rust,
            plain,
            plain_before,
            other,
            model,
            differing,
        }
    }

    /// What the Rust holds after a call. After a refused one it is as if that had not been made.
    fn after(&self, call: &Call, directives: &Directives, rust: &CallResult) -> Before {
        let mut after = self.before.clone();
        if let Answer::Refused(_) = rust.answer {
            return after;
        }
        after.told.extend(told(call, directives, rust));
        Before {
            calls: after.calls + 1,
            phase: call.phase,
            mode: rust.mode,
            body_access: rust.body_access,
            body_processor: rust.body_processor,
            ranges: rust.ranges.clone(),
            targets: after.targets + rust.targets.len(),
            allowed: rust.allowed,
            stopped: rust.intervention != Stop::No,
            told: after.told,
        }
    }

    fn differing(
        &self,
        call: &Call,
        rust: &CallResult,
        model: &CallResult,
        ours: &CallResult,
        faults: Vec<&'static str>,
    ) -> Vec<String> {
        let mut differs = named("the model's ", differing(rust, model));
        differs.extend(named("", differing(rust, ours)));
        differs.extend(named("", faults));
        if ours.visits != model.visits {
            differs.push("the journal is not the model's".to_string());
        }
        differs.extend(removal_fault(call, &self.before, rust, ours));
        differs
    }
}

fn named(whose: &str, names: Vec<&'static str>) -> Vec<String> {
    let names = names.into_iter();
    names.map(|name| format!("{whose}{name}")).collect()
}

/// What the Rust's ranges alone say of the journal: its indexes rise, a removed rule has its id in a range that is held
/// after the call, and a visited rule with its id in a range held before it is removed.
fn removal_fault(
    call: &Call,
    before: &Before,
    rust: &CallResult,
    ours: &CallResult,
) -> Option<String> {
    let is_in = |ranges: &[(u64, u64)], index: u64| {
        let is_rule = (index as usize) < call.rules.len();
        let id = is_rule.then(|| call.id_of(index as usize)).flatten();
        id.is_some_and(|id| {
            ranges
                .iter()
                .any(|(start, end)| (*start..=*end).contains(&id))
        })
    };
    let rises = ours.visits.windows(2).all(|two| two[0].0 < two[1].0);
    let agrees = |&(index, verdict): &(u64, Verdict)| match verdict {
        Verdict::Removed => is_in(&rust.ranges, index),
        _ => !is_in(&before.ranges, index),
    };
    let is_right = rises && ours.visits.iter().all(agrees);
    (!is_right).then(|| "removed visits against the ranges".to_string())
}
