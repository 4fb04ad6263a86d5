//! All sides' outcome of one directive, and whether they agree.

use beside::model::read_directive;
use oracle::{directive_answer, CtlDirective, RuleEngineMode};
use tivembo::raw::ReadRecord;

use crate::question::Question;

/// 01: "65,536 text bytes", and refusal 6's "byte of 80 (hexadecimal) or more".
const LONGEST: usize = 65_536;

/// Entries before and after a lent list that belong to nobody.
const GUARD: usize = 3;

/// What a reader answered, and what then stands in and around the two lists.
#[derive(Debug, Clone, PartialEq, Eq)]
pub struct Outcome {
    pub record: ReadRecord,
    pub starts: List,
    pub ends: List,
}

/// A list as it is lent: entries that differ from each other, with some more on each side.
#[derive(Debug, Clone, PartialEq, Eq)]
pub struct List(Vec<u64>);

impl List {
    pub fn new(length: usize, first: u64) -> Self {
        let entry = |i: usize| first.wrapping_sub(i as u64 * 0x0001_0003_0007);
        Self((0..length + 2 * GUARD).map(entry).collect())
    }

    pub fn lent(&mut self) -> &mut [u64] {
        let end = self.0.len() - GUARD;
        &mut self.0[GUARD..end]
    }

    pub fn entries(&self) -> &[u64] {
        &self.0[GUARD..self.0.len() - GUARD]
    }
}

impl Outcome {
    /// The lists as they are lent for a question.
    pub fn before(question: &Question) -> Self {
        Self {
            record: refused(0),
            starts: List::new(question.starts, 0xA5A5_5A5A_0F0F_0001),
            ends: List::new(question.ends, 0x5A5A_A5A5_F0F0_0002),
        }
    }
}

pub fn refused(answer: u64) -> ReadRecord {
    ReadRecord {
        answer,
        form: 0,
        value: 0,
    }
}

/// What the proved reader does.
pub fn ours(question: &Question) -> Outcome {
    let mut outcome = Outcome::before(question);
    let (starts, ends) = (outcome.starts.lent(), outcome.ends.lent());
    outcome.record = tivembo::raw::read_directive(&question.name, &question.value, starts, ends);
    outcome
}

/// What the published Rust says.
pub enum Expected {
    /// 01's refusals 2 and 6: the Rust, which has none, is not asked.
    Refused(u64),
    Directive(CtlDirective),
}

pub fn expected(question: &Question) -> Expected {
    let Question { name, value, .. } = question;
    if name.len() > LONGEST || value.len() > LONGEST {
        return Expected::Refused(2);
    }
    if !name.is_ascii() || !value.is_ascii() {
        return Expected::Refused(6);
    }
    Expected::Directive(oracle::directive(name, value))
}

pub fn as_ascii(text: &[u8]) -> Option<&str> {
    let text = std::str::from_utf8(text).ok()?;
    text.is_ascii().then_some(text)
}

/// The answer that follows: 7 where the Rust has more ranges than the shorter list has places.
pub fn expected_answer(question: &Question, expected: &Expected) -> u64 {
    match expected {
        Expected::Refused(answer) => *answer,
        Expected::Directive(CtlDirective::RuleRemoveById(ranges)) => {
            let room = question.starts.min(question.ends);
            if ranges.len() > room {
                7
            } else {
                0
            }
        }
        Expected::Directive(_) => 0,
    }
}

/// Whether the outcome is the one that the Rust's directive and 01's rules for the lists ask for.
pub fn agrees(question: &Question, expected: &Expected, found: &Outcome) -> bool {
    let mut wanted = Outcome::before(question);
    wanted.record.answer = expected_answer(question, expected);
    if let (0, Expected::Directive(directive)) = (wanted.record.answer, expected) {
        let (form, value) = numbers(question, directive, found.record.value);
        (wanted.record.form, wanted.record.value) = (form, value);
        if let CtlDirective::RuleRemoveById(ranges) = directive {
            let ends = ranges.iter().map(|range| range.ends());
            for (i, (start, end)) in ends.enumerate() {
                wanted.starts.lent()[i] = start;
                wanted.ends.lent()[i] = end;
            }
        }
    }
    wanted == *found
}

/// Whether the model reads what the Rust does. It refuses nothing.
pub fn model_agrees(question: &Question, expected: &Expected) -> bool {
    match expected {
        Expected::Refused(_) => true,
        Expected::Directive(directive) => {
            let read = read_directive(&question.name, &question.value);
            read == directive_answer(directive)
        }
    }
}

/// The form and the value that a directive of the Rust is as numbers. The Rust keeps a target's two texts: `cut`, where
/// it was found to be cut, is right if both sides are these texts.
fn numbers(question: &Question, directive: &CtlDirective, cut: u64) -> (u64, u64) {
    match directive {
        CtlDirective::Unsupported { reason, .. } => (0, oracle::reason(reason).number()),
        CtlDirective::RuleEngine(RuleEngineMode::On) => (1, 0),
        CtlDirective::RuleEngine(RuleEngineMode::DetectionOnly) => (1, 1),
        CtlDirective::RuleEngine(RuleEngineMode::Off) => (1, 2),
        CtlDirective::RuleRemoveById(ranges) => (2, ranges.len() as u64),
        CtlDirective::RuleRemoveTargetById { rule_id, target } => {
            let sides = sides(&question.value, cut);
            let is_right = sides == Some((rule_id.as_str(), target.as_str()));
            (3, if is_right { cut } else { !cut })
        }
        CtlDirective::RequestBodyAccess(on) => (4, u64::from(!on)),
        CtlDirective::RequestBodyProcessor(name) => {
            let names = ["URLENCODED", "MULTIPART", "JSON", "XML"];
            let number = names.iter().position(|known| known == name);
            (5, number.expect("the Rust gives one of four names") as u64)
        }
    }
}

/// The trimmed texts before and after the ';' at `cut`.
pub fn sides(value: &[u8], cut: u64) -> Option<(&str, &str)> {
    let cut = usize::try_from(cut).ok()?;
    if value.get(cut) != Some(&b';') {
        return None;
    }
    let before = as_ascii(&value[..cut])?.trim();
    Some((before, as_ascii(&value[cut + 1..])?.trim()))
}
