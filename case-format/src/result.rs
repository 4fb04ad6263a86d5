//! What calls give, and how the format prints it.

use std::fmt;

use crate::directive::UnsupportedReason;
use crate::text::{data, list, on_off, or_dash, quoted, range, target, visit, yes_no};
use crate::words::{BodyProcessor, Mode, Verdict};

/// The results of a case's calls. It prints as the format has them, without an end after its last line.
#[derive(Debug, Clone, PartialEq, Eq)]
pub struct CaseResult {
    /// The case's name.
    pub name: String,
    /// One for each call that was made.
    pub calls: Vec<CallResult>,
}

/// What one call gave. After a refusal it is what the transaction holds, unchanged, and nothing added.
#[derive(Debug, Clone, PartialEq, Eq)]
pub struct CallResult {
    /// The phase that was called.
    pub phase: u64,
    /// How the call ended.
    pub answer: Answer,
    /// The rules visited, in order: index and verdict.
    pub visits: Vec<(u64, Verdict)>,
    /// The ids that this call added.
    pub ids: Vec<u64>,
    /// The data entries that this call added: id or none, and rule index.
    pub data: Vec<(Option<u64>, u64)>,
    /// The mode that a control has set.
    pub mode: Option<Mode>,
    /// Whether a control has set body access On or Off.
    pub body_access: Option<bool>,
    /// The body processor that a control has set.
    pub body_processor: Option<BodyProcessor>,
    /// All ranges held after the call, sorted and merged; after a refusal as they were before.
    pub ranges: Vec<(u64, u64)>,
    /// The targets that this call added, before the drop of unknown names: rule id and target.
    pub targets: Vec<(Vec<u8>, Vec<u8>)>,
    /// Whether the request is allowed after the call.
    pub allowed: bool,
    /// The intervention after the call.
    pub intervention: Stop,
    /// The first unsupported directive of the units that this call closed. None after a refusal.
    pub unsupported: Option<Unsupported>,
}

/// How a call ended.
#[derive(Debug, Clone, Copy, PartialEq, Eq)]
pub enum Answer {
    /// It was carried through: 0.
    Done,
    /// The rule with this index gave the rule error: 10.
    RuleError(u64),
    /// It was refused with this number.
    Refused(u64),
}

/// The intervention after a call.
#[derive(Debug, Clone, PartialEq, Eq)]
pub enum Stop {
    /// There is none.
    No,
    /// It stood before the call.
    Held,
    /// This call built it.
    New(Box<Intervention>),
}

/// An unsupported directive that a call passed over. It prints as the rule's index and the reason.
#[derive(Debug, Clone, Copy, PartialEq, Eq, Hash)]
pub struct Unsupported {
    /// The index of the rule that has it.
    pub rule: u64,
    /// Why it is unsupported.
    pub reason: UnsupportedReason,
}

/// An intervention with its texts.
#[derive(Debug, Clone, Default, PartialEq, Eq)]
pub struct Intervention {
    /// The status of the answer.
    pub status: u64,
    /// Whether the connection is dropped.
    pub drop: bool,
    /// Where a redirect leads.
    pub url: Option<Vec<u8>>,
    /// The log message.
    pub log: Option<Vec<u8>>,
    /// The closing rule's id, then the starter's.
    pub ids: Vec<u64>,
    /// The phase that built it.
    pub phase: u64,
    /// The id in the metadata.
    pub id: Option<u64>,
    /// The message.
    pub msg: Option<Vec<u8>>,
    /// More for the log.
    pub logdata: Option<Vec<u8>>,
    /// The revision.
    pub rev: Option<Vec<u8>>,
    /// The version.
    pub ver: Option<Vec<u8>>,
    /// The severity.
    pub severity: Option<u64>,
    /// The maturity.
    pub maturity: Option<u64>,
    /// The accuracy.
    pub accuracy: Option<u64>,
}

impl fmt::Display for CaseResult {
    fn fmt(&self, f: &mut fmt::Formatter<'_>) -> fmt::Result {
        writeln!(f, "case {}", self.name)?;
        for call in &self.calls {
            writeln!(f, "{call}")?;
        }
        f.write_str("end")
    }
}

/// Without an end after its last line.
impl fmt::Display for CallResult {
    fn fmt(&self, f: &mut fmt::Formatter<'_>) -> fmt::Result {
        f.write_str(&self.lines().join("\n"))
    }
}

impl CallResult {
    /// What is found after a call of this phase that did nothing, on a transaction that holds nothing.
    pub fn empty(phase: u64) -> Self {
        Self {
            phase,
            answer: Answer::Done,
            visits: Vec::new(),
            ids: Vec::new(),
            data: Vec::new(),
            mode: None,
            body_access: None,
            body_processor: None,
            ranges: Vec::new(),
            targets: Vec::new(),
            allowed: false,
            intervention: Stop::No,
            unsupported: None,
        }
    }

    /// The visits at which a rule was evaluated: all but the removed ones, which the Rust does not have.
    pub fn evaluated(&self) -> impl Iterator<Item = (u64, Verdict)> + '_ {
        let is_evaluated = |visit: &&(u64, Verdict)| visit.1 != Verdict::Removed;
        self.visits.iter().filter(is_evaluated).copied()
    }

    /// The lines of this result, every line present. Those of two results stand in the same order.
    ///
    /// ```
    /// use case_format::{CallResult, Verdict};
    /// let mut result = CallResult::empty(2);
    /// result.visits = vec![(0, Verdict::Matched), (1, Verdict::Removed)];
    /// assert_eq!(result.lines()[..4], ["call 2", "answer 0", "visits 0:matched 1:removed", "ids"]);
    /// ```
    pub fn lines(&self) -> Vec<String> {
        vec![
            format!("call {}", self.phase),
            format!("answer {}", self.answer),
            list("visits", &self.visits, visit),
            list("ids", &self.ids, u64::to_string),
            list("data", &self.data, data),
            format!("mode {}", or_dash(self.mode)),
            format!("body-access {}", or_dash(self.body_access.map(on_off))),
            format!("body-processor {}", or_dash(self.body_processor)),
            list("ranges", &self.ranges, range),
            list("targets", &self.targets, target),
            format!("allowed {}", yes_no(self.allowed)),
            format!("intervention {}", self.intervention),
            format!("unsupported {}", or_dash(self.unsupported)),
        ]
    }
}

impl fmt::Display for Answer {
    fn fmt(&self, f: &mut fmt::Formatter<'_>) -> fmt::Result {
        match self {
            Self::Done => f.write_str("0"),
            Self::RuleError(index) => write!(f, "10 {index}"),
            Self::Refused(number) => write!(f, "{number}"),
        }
    }
}

impl fmt::Display for Stop {
    fn fmt(&self, f: &mut fmt::Formatter<'_>) -> fmt::Result {
        match self {
            Self::No => f.write_str("-"),
            Self::Held => f.write_str("held"),
            Self::New(new) => write!(f, "{new}"),
        }
    }
}

impl fmt::Display for Unsupported {
    fn fmt(&self, f: &mut fmt::Formatter<'_>) -> fmt::Result {
        write!(f, "{} {}", self.rule, self.reason)
    }
}

impl fmt::Display for Intervention {
    fn fmt(&self, f: &mut fmt::Formatter<'_>) -> fmt::Result {
        let text = |text: &Option<Vec<u8>>| or_dash(text.as_deref().map(quoted));
        let ids: Vec<String> = self.ids.iter().map(u64::to_string).collect();
        let ids = (!ids.is_empty()).then(|| ids.join(","));
        write!(f, "status={} drop={}", self.status, yes_no(self.drop))?;
        write!(f, " url={} log={}", text(&self.url), text(&self.log))?;
        write!(f, " ids={} phase={}", or_dash(ids), self.phase)?;
        write!(f, " id={} msg={}", or_dash(self.id), text(&self.msg))?;
        write!(f, " logdata={}", text(&self.logdata))?;
        write!(f, " rev={} ver={}", text(&self.rev), text(&self.ver))?;
        write!(f, " severity={}", or_dash(self.severity))?;
        write!(f, " maturity={}", or_dash(self.maturity))?;
        write!(f, " accuracy={}", or_dash(self.accuracy))
    }
}
