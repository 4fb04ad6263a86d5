//! The small values that calls take and give, with 01's numbers.

use std::fmt;

use crate::records::{HostNumber, HostPlace, Part};

/// The mode of a rule set, and the one in force.
#[derive(Debug, Clone, Copy, PartialEq, Eq, Hash)]
pub enum Mode {
    /// Rules match and stop requests.
    On,
    /// Rules match, and none stops a request.
    DetectionOnly,
    /// No rule is visited.
    Off,
}

/// All modes, in the order of 01's numbers.
const MODES: [Mode; 3] = [Mode::On, Mode::DetectionOnly, Mode::Off];

impl Mode {
    /// 01's number: 0 On, 1 DetectionOnly, 2 Off.
    pub fn number(self) -> u64 {
        self as u64
    }

    /// The mode with this number.
    pub fn from_number(number: u64) -> Option<Self> {
        numbered(&MODES, number)
    }
}

impl fmt::Display for Mode {
    fn fmt(&self, f: &mut fmt::Formatter<'_>) -> fmt::Result {
        f.write_str(["On", "DetectionOnly", "Off"][*self as usize])
    }
}

/// The processor of the request body that a directive has set.
#[derive(Debug, Clone, Copy, PartialEq, Eq, Hash)]
pub enum BodyProcessor {
    /// URLENCODED
    Urlencoded,
    /// MULTIPART
    Multipart,
    /// JSON
    Json,
    /// XML
    Xml,
}

const PROCESSORS: [BodyProcessor; 4] = [
    BodyProcessor::Urlencoded,
    BodyProcessor::Multipart,
    BodyProcessor::Json,
    BodyProcessor::Xml,
];

impl BodyProcessor {
    /// The processor with this number: 0 URLENCODED, 1 MULTIPART, 2 JSON, 3 XML.
    pub fn from_number(number: u64) -> Option<Self> {
        numbered(&PROCESSORS, number)
    }
}

impl fmt::Display for BodyProcessor {
    fn fmt(&self, f: &mut fmt::Formatter<'_>) -> fmt::Result {
        f.write_str(["URLENCODED", "MULTIPART", "JSON", "XML"][*self as usize])
    }
}

/// What the evaluation of a rule found: the host gives one for each rule.
#[repr(u8)]
#[derive(Debug, Clone, Copy, PartialEq, Eq, Hash)]
pub enum Outcome {
    /// It did not match.
    Missed = 0,
    /// Matched without a variable, as an unconditional rule does.
    Matched = 1,
    /// Matched with a variable: the rule's unit writes a data entry for it.
    MatchedVariable = 2,
    /// The evaluation failed. A visited rule that is not removed then ends the phase.
    Error = 3,
}

/// What a visit found of its rule.
#[derive(Debug, Clone, Copy, PartialEq, Eq, Hash)]
pub enum Verdict {
    /// The outcome was missed.
    Missed,
    /// The outcome was one of the two that match.
    Matched,
    /// The rule's id lies in a removed range: its outcome was not looked at.
    Removed,
    /// The outcome was the rule error: this visit is the last.
    Error,
}

const VERDICTS: [Verdict; 4] = [
    Verdict::Missed,
    Verdict::Matched,
    Verdict::Removed,
    Verdict::Error,
];

impl Verdict {
    /// The verdict with 01's number: 0 missed, 1 matched, 2 removed, 3 error.
    pub fn from_number(number: u64) -> Option<Self> {
        numbered(&VERDICTS, number)
    }
}

impl fmt::Display for Verdict {
    fn fmt(&self, f: &mut fmt::Formatter<'_>) -> fmt::Result {
        f.write_str(["missed", "matched", "removed", "error"][*self as usize])
    }
}

/// Where a text or a target stands: the phase, and the position in that phase's action list.
/// [`RuleSets`](crate::RuleSets) finds the texts.
#[derive(Debug, Clone, Copy, PartialEq, Eq, Hash)]
pub struct Place {
    /// 1 to 5.
    pub phase: u64,
    /// In that phase's whole action list.
    pub position: u64,
}

/// A data entry: a rule of a closed unit had matched with a variable. The host adds the first match's strings.
#[derive(Debug, Clone, Copy, PartialEq, Eq, Hash)]
pub struct Data {
    /// The rule's own id, else that of the rule that started its unit, else none.
    pub id: Option<u64>,
    /// The phase of the call.
    pub phase: u64,
    /// The rule's index.
    pub index: u64,
}

impl Part {
    /// The part's bytes, none where it is not inside the text.
    ///
    /// ```
    /// let part = tivembo::Part { start: 2, len: 3 };
    /// assert_eq!(part.of(b"a marker"), Some(&b"mar"[..]));
    /// assert_eq!(part.of(b"mark"), None);
    /// ```
    pub fn of(self, text: &[u8]) -> Option<&[u8]> {
        let start = usize::try_from(self.start).ok()?;
        let end = start.checked_add(usize::try_from(self.len).ok()?)?;
        text.get(start..end)
    }
}

impl HostNumber {
    /// The number, none where there is none.
    pub fn get(self) -> Option<u64> {
        (self.present == 1).then_some(self.value)
    }
}

impl From<Option<u64>> for HostNumber {
    fn from(number: Option<u64>) -> Self {
        Self {
            present: u64::from(number.is_some()),
            value: number.unwrap_or(0),
        }
    }
}

impl HostPlace {
    /// The place, none where there is none.
    pub fn get(self) -> Option<Place> {
        (self.present == 1).then_some(Place {
            phase: self.phase,
            position: self.position,
        })
    }
}

/// The value with this number among all of its kind.
pub(crate) fn numbered<T: Copy>(all: &[T], number: u64) -> Option<T> {
    all.get(usize::try_from(number).ok()?).copied()
}
