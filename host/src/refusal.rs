//! Why a call is refused.

use std::error::Error;
use std::fmt;

use crate::values::numbered;

/// Why a call is refused: 01's reasons in their order. The first that applies is given, and after a refused call
/// everything that was lent is as before.
#[derive(Debug, Clone, Copy, PartialEq, Eq, Hash)]
pub enum Refusal {
    /// The phase is not 1 to 5, or the rule set's mode not 0 to 2.
    UnknownPhaseOrMode = 1,
    /// Too many rules, actions, markers or bytes; for the directive reader, a text that is too long.
    TooLarge = 2,
    /// The transaction counts more than it or a list can hold, or its ranges are not merged
    /// ([`Controls::range_fault`](crate::Controls::range_fault)).
    Miscounted = 3,
    /// The outcomes are not as many as the rules.
    OutcomeCount = 4,
    /// A record holds what no record may; for an added range, its start is above its end.
    BadRecord = 5,
    /// The text has a byte of 80 (hexadecimal) or more.
    HighByte = 6,
    /// A list has too few free entries.
    NoRoom = 7,
    /// Ranges, those held and those to come as they are written, are more than 256, also where some would merge.
    TooManyRanges = 8,
    /// Targets, held and to come, are more than 64.
    TooManyTargets = 9,
}

const REFUSALS: [Refusal; 9] = [
    Refusal::UnknownPhaseOrMode,
    Refusal::TooLarge,
    Refusal::Miscounted,
    Refusal::OutcomeCount,
    Refusal::BadRecord,
    Refusal::HighByte,
    Refusal::NoRoom,
    Refusal::TooManyRanges,
    Refusal::TooManyTargets,
];

const SENTENCES: [&str; 9] = [
    "the phase is not 1 to 5, or the mode is none of On, DetectionOnly and Off",
    "there are more than 512 rules, 4,096 actions, 256 markers or 65,536 bytes of text",
    "the transaction counts more than 256 ranges, more than 64 targets, or more entries than a lent list has, \
     or its ranges are not sorted by start with an id between each two, or one starts above its end",
    "the outcomes are not as many as the rules",
    "a record holds an unknown kind, flag or outcome, a number above its limit, a part outside its list or text, \
     a marker after the last rule, or a range that starts above its end",
    "the text has a byte of 80 (hexadecimal) or more",
    "a lent list has too few free entries",
    "held ranges and those of all rules as written are together more than 256, also where they would merge",
    "held targets and those of all rules together are more than 64",
];

impl Refusal {
    /// 01's number.
    ///
    /// ```
    /// assert_eq!(tivembo::Refusal::HighByte.number(), 6);
    /// ```
    pub fn number(self) -> u64 {
        self as u64
    }

    /// The refusal with 01's number; 0 and 10 are none.
    pub fn from_number(number: u64) -> Option<Self> {
        numbered(&REFUSALS, number.checked_sub(1)?)
    }

    /// The value where the answer is 0 or 10, else the refusal.
    pub(crate) fn unless<T>(answer: u64, value: T) -> Result<T, Self> {
        match answer {
            0 | 10 => Ok(value),
            _ => Err(Self::from_number(answer).expect("the contracts have no other answer")),
        }
    }
}

impl fmt::Display for Refusal {
    fn fmt(&self, f: &mut fmt::Formatter<'_>) -> fmt::Result {
        f.write_str(SENTENCES[*self as usize - 1])
    }
}

impl Error for Refusal {}
