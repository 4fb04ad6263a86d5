//! Why a directive is passed over.

use std::fmt;

use crate::directive::{read_directive, Directive};
use crate::values::numbered;
use crate::Act;

/// Why a ctl directive is unsupported: 02's seven reasons. Which of them it is goes by the directive's name.
///
/// It prints as a sentence for those who write the rules: what is expected, with an example.
///
/// ```
/// use tivembo::{read_directive, Directive, UnsupportedReason};
///
/// let read = read_directive(b"requestBodyAccess", b"yes")?;
/// assert_eq!(read, Directive::Unsupported(UnsupportedReason::BodyAccessValue));
/// let reason = UnsupportedReason::BodyAccessValue;
/// assert_eq!(reason.to_string(), "requestBodyAccess takes On or Off, as in requestBodyAccess=Off");
/// assert_eq!((reason.number(), reason.name()), (4, "body access value"));
/// # Ok::<(), tivembo::Refusal>(())
/// ```
#[derive(Debug, Clone, Copy, PartialEq, Eq, Hash)]
pub enum UnsupportedReason {
    /// A ruleEngine with a value that is no mode.
    ModeValue = 1,
    /// A ruleRemoveById with a bad part, with a start above its end, or without any part.
    IdList = 2,
    /// A ruleRemoveTargetById without a ";", or with nothing before or after it.
    TargetForm = 3,
    /// A requestBodyAccess with a value other than On and Off.
    BodyAccessValue = 4,
    /// A requestBodyProcessor with a name that is none of the four.
    Processor = 5,
    /// An auditEngine or auditLogParts, whatever its value.
    Audit = 6,
    /// Any other name, a blank one too.
    Unrecognised = 7,
}

const REASONS: [UnsupportedReason; 7] = [
    UnsupportedReason::ModeValue,
    UnsupportedReason::IdList,
    UnsupportedReason::TargetForm,
    UnsupportedReason::BodyAccessValue,
    UnsupportedReason::Processor,
    UnsupportedReason::Audit,
    UnsupportedReason::Unrecognised,
];

/// As 02 calls them.
const NAMES: [&str; 7] = [
    "mode value",
    "id list",
    "target form",
    "body access value",
    "processor",
    "audit",
    "unrecognised",
];

const SENTENCES: [&str; 7] = [
    "ruleEngine takes one of the modes On, DetectionOnly and Off, as in ruleEngine=DetectionOnly",
    "ruleRemoveById takes rule ids and ranges, separated by commas, as in ruleRemoveById=942100-942999,43; one bad \
     part, such as 5-4, spoils the whole list",
    "ruleRemoveTargetById takes a rule id and a variable with a semicolon between them, as in \
     ruleRemoveTargetById=942100;ARGS:token",
    "requestBodyAccess takes On or Off, as in requestBodyAccess=Off",
    "requestBodyProcessor takes one of URLENCODED, MULTIPART, JSON and XML, as in requestBodyProcessor=JSON",
    "auditEngine and auditLogParts steer an audit log, and none is written here: auditEngine=On has no effect, nor \
     has any other value",
    "this directive is not known here; known are ruleEngine, ruleRemoveById, ruleRemoveTargetById, requestBodyAccess \
     and requestBodyProcessor, as in ruleEngine=Off",
];

impl UnsupportedReason {
    /// 02's number, 1 to 7.
    pub fn number(self) -> u64 {
        self as u64
    }

    /// The reason with 02's number; 0 is none.
    ///
    /// ```
    /// use tivembo::UnsupportedReason;
    /// assert_eq!(UnsupportedReason::from_number(2), Some(UnsupportedReason::IdList));
    /// assert_eq!(UnsupportedReason::from_number(0), None);
    /// ```
    pub fn from_number(number: u64) -> Option<Self> {
        numbered(&REASONS, number.checked_sub(1)?)
    }

    /// As 02 calls it, in a word or two.
    pub fn name(self) -> &'static str {
        NAMES[self as usize - 1]
    }
}

impl fmt::Display for UnsupportedReason {
    fn fmt(&self, f: &mut fmt::Formatter<'_>) -> fmt::Result {
        f.write_str(SENTENCES[*self as usize - 1])
    }
}

/// Where a phase passed a directive over: [`Phase::unsupported`](crate::Phase::unsupported) gives the first place.
#[derive(Debug, Clone, Copy, PartialEq, Eq, Hash)]
pub struct UnsupportedDirective {
    /// The index of the rule that has the directive, also where another rule started or closed its unit.
    pub rule: usize,
    /// Why it is unsupported.
    pub reason: UnsupportedReason,
}

/// An unsupported directive with its texts, as [`Records::unsupported_in`](crate::Records::unsupported_in) finds it in a
/// rule.
///
/// It prints as the directive, and then why. Its texts come from a rule file, so a byte that would break a log line is
/// escaped.
///
/// ```
/// use tivembo::{PassedOver, UnsupportedReason};
///
/// let reason = UnsupportedReason::BodyAccessValue;
/// let passed = PassedOver { name: b"requestBodyAccess", value: b"yes\n", reason };
/// let line = r"requestBodyAccess=yes\n: requestBodyAccess takes On or Off, as in requestBodyAccess=Off";
/// assert_eq!(passed.to_string(), line);
/// ```
#[derive(Debug, Clone, Copy, PartialEq, Eq, Hash)]
pub struct PassedOver<'a> {
    /// The directive's name, as the rule has it.
    pub name: &'a [u8],
    /// Its value, as the rule has it.
    pub value: &'a [u8],
    /// Why it is unsupported.
    pub reason: UnsupportedReason,
}

impl<'a> PassedOver<'a> {
    /// What the proved reader says of an action: none where it is no directive, or a supported one.
    pub(crate) fn of(action: Act<'a>) -> Option<Self> {
        let Act::Ctl(name, value) = action else {
            return None;
        };
        let Ok(Directive::Unsupported(reason)) = read_directive(name, value) else {
            return None;
        };
        Some(Self {
            name,
            value,
            reason,
        })
    }
}

impl fmt::Display for PassedOver<'_> {
    fn fmt(&self, f: &mut fmt::Formatter<'_>) -> fmt::Result {
        let (name, value) = (self.name.escape_ascii(), self.value.escape_ascii());
        write!(f, "{name}={value}: {}", self.reason)
    }
}
