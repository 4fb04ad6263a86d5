//! What a directive reader says of a `ctl` line outside a case.

use std::fmt;

use crate::text::{list, on_off, quoted, range};
use crate::words::{BodyProcessor, Mode};

/// Why a directive is unsupported: 02's seven reasons, numbered 1 to 7 in this order. It prints as its number.
#[derive(Debug, Clone, Copy, PartialEq, Eq, Hash)]
pub enum UnsupportedReason {
    /// ruleEngine with a value that is no mode.
    ModeValue = 1,
    /// ruleRemoveById with a value that is no list of ids.
    IdList,
    /// ruleRemoveTargetById with a value that is no id and target.
    TargetForm,
    /// requestBodyAccess with a value that is neither On nor Off.
    BodyAccessValue,
    /// requestBodyProcessor with a value that is none of the four names.
    Processor,
    /// auditEngine or auditLogParts, whatever the value.
    Audit,
    /// Any other directive.
    Unrecognised,
}

impl UnsupportedReason {
    /// All of them, in the order of 02's numbers.
    pub const ALL: [Self; 7] = [
        Self::ModeValue,
        Self::IdList,
        Self::TargetForm,
        Self::BodyAccessValue,
        Self::Processor,
        Self::Audit,
        Self::Unrecognised,
    ];

    /// 02's number.
    pub const fn number(self) -> u64 {
        self as u64
    }

    /// The one with 02's number.
    ///
    /// ```
    /// use case_format::UnsupportedReason;
    /// assert_eq!(UnsupportedReason::from_number(6), Some(UnsupportedReason::Audit));
    /// assert_eq!(UnsupportedReason::from_number(0), None);
    /// ```
    pub fn from_number(number: u64) -> Option<Self> {
        Self::ALL.into_iter().find(|it| it.number() == number)
    }
}

impl fmt::Display for UnsupportedReason {
    fn fmt(&self, f: &mut fmt::Formatter<'_>) -> fmt::Result {
        write!(f, "{}", self.number())
    }
}

/// The answer to a directive. It prints as the format's line.
///
/// ```
/// use case_format::DirectiveAnswer;
/// let answer = DirectiveAnswer::Ranges(vec![(1, 5), (7, 7)]);
/// assert_eq!(answer.to_string(), "ranges 1-5 7-7");
/// ```
#[derive(Debug, Clone, PartialEq, Eq)]
pub enum DirectiveAnswer {
    /// ruleEngine with this mode.
    Engine(Mode),
    /// ruleRemoveById with these ranges.
    Ranges(Vec<(u64, u64)>),
    /// ruleRemoveTargetById with this rule id and this target.
    Target(Vec<u8>, Vec<u8>),
    /// requestBodyAccess, On or Off.
    BodyAccess(bool),
    /// requestBodyProcessor with this name.
    BodyProcessor(BodyProcessor),
    /// None of these, or one with a value that it can't have.
    Unsupported(UnsupportedReason),
    /// The reader refuses it with this number.
    Refused(u64),
}

impl fmt::Display for DirectiveAnswer {
    fn fmt(&self, f: &mut fmt::Formatter<'_>) -> fmt::Result {
        match self {
            Self::Engine(mode) => write!(f, "engine {mode}"),
            Self::Ranges(ranges) => f.write_str(&list("ranges", ranges, range)),
            Self::Target(id, target) => write!(f, "target {} {}", quoted(id), quoted(target)),
            Self::BodyAccess(on) => write!(f, "body-access {}", on_off(*on)),
            Self::BodyProcessor(name) => write!(f, "body-processor {name}"),
            Self::Unsupported(reason) => write!(f, "unsupported {reason}"),
            Self::Refused(number) => write!(f, "answer {number}"),
        }
    }
}

#[cfg(test)]
mod tests {
    use super::*;

    /// 02: "mode value, id list, target form, body access value, processor, audit, unrecognised, numbered 1 to 7".
    #[test]
    fn reasons_have_the_numbers_of_02() {
        let numbers = UnsupportedReason::ALL.map(UnsupportedReason::number);
        assert_eq!(numbers, [1, 2, 3, 4, 5, 6, 7]);
        for reason in UnsupportedReason::ALL {
            let back = UnsupportedReason::from_number(reason.number());
            assert_eq!(back, Some(reason));
        }
        for none in [0, 8, u64::MAX] {
            assert_eq!(UnsupportedReason::from_number(none), None);
        }
    }
}
