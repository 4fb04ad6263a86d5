//! The directive reader.

use crate::constants::directive as form;
use crate::exported;
use crate::values::{BodyProcessor, Mode};
use crate::{Refusal, UnsupportedReason};

/// What a ctl directive says.
#[derive(Debug, Clone, PartialEq, Eq)]
pub enum Directive<'a> {
    /// The mode from here on.
    RuleEngine(Mode),
    /// The removed ids as ranges, in the order in which they are written; both ends are removed.
    RuleRemoveById(Vec<(u64, u64)>),
    /// A target that is removed from a rule.
    RuleRemoveTargetById(Target<'a>),
    /// Whether the request body is read.
    RequestBodyAccess(bool),
    /// The processor of the request body.
    RequestBodyProcessor(BodyProcessor),
    /// Everything else, and why. It changes nothing.
    Unsupported(UnsupportedReason),
}

/// A target that is removed from a rule: the text for the rule's id, and the text for the variable.
///
/// The host drops a target whose variable it does not know; here every one is kept.
#[derive(Debug, Clone, Copy, PartialEq, Eq, Hash)]
pub struct Target<'a> {
    /// The text for the rule's id, trimmed.
    pub rule_id: &'a [u8],
    /// The text for the variable, trimmed.
    pub target: &'a [u8],
}

/// Reads a directive and its value. Only refusals 2 (a text is longer than 65,536 bytes) and 6 (a byte of 80,
/// hexadecimal, or more) are given.
///
/// ```
/// use tivembo::{read_directive, Directive, Mode, Refusal, UnsupportedReason};
///
/// let read = read_directive(b" RuleEngine", b"detectiononly")?;
/// assert_eq!(read, Directive::RuleEngine(Mode::DetectionOnly));
/// let read = read_directive(b"ruleRemoveById", b"5 - 7, +9")?;
/// assert_eq!(read, Directive::RuleRemoveById(vec![(5, 7), (9, 9)]));
/// let read = read_directive(b"ruleRemoveById", b"1,5-4")?;
/// assert_eq!(read, Directive::Unsupported(UnsupportedReason::IdList));
/// assert_eq!(read_directive(b"ruleEngine", b"\xC3\x96n"), Err(Refusal::HighByte));
/// # Ok::<(), Refusal>(())
/// ```
pub fn read_directive<'a>(name: &[u8], value: &'a [u8]) -> Result<Directive<'a>, Refusal> {
    let read = exported::read_directive(name, value, &mut [], &mut []);
    if read.answer == Refusal::NoRoom.number() {
        return Ok(Directive::RuleRemoveById(ranges(name, value)));
    }
    Refusal::unless(read.answer, ())?;
    let directive = match read.form {
        form::RULE_ENGINE => Mode::from_number(read.value).map(Directive::RuleEngine),
        form::RULE_REMOVE_TARGET_BY_ID => {
            sides(value, read.value).map(Directive::RuleRemoveTargetById)
        }
        form::REQUEST_BODY_ACCESS => Some(Directive::RequestBodyAccess(read.value == 0)),
        form::REQUEST_BODY_PROCESSOR => {
            BodyProcessor::from_number(read.value).map(Directive::RequestBodyProcessor)
        }
        _ => UnsupportedReason::from_number(read.value).map(Directive::Unsupported),
    };
    Ok(directive.expect("the contract has no other values"))
}

/// The ranges of a directive that has some. A range takes a byte at least, and a comma stands between two.
fn ranges(name: &[u8], value: &[u8]) -> Vec<(u64, u64)> {
    let most = value.len() / 2 + 1;
    let (mut starts, mut ends) = (vec![0; most], vec![0; most]);
    let read = exported::read_directive(name, value, &mut starts, &mut ends);
    let ranges = starts.into_iter().zip(ends);
    ranges.take(read.value as usize).collect()
}

/// The two trimmed sides of the ';' at `cut`.
fn sides(value: &[u8], cut: u64) -> Option<Target<'_>> {
    let (rule_id, after) = value.split_at_checked(usize::try_from(cut).ok()?)?;
    Some(Target {
        rule_id: trim(rule_id),
        target: trim(after.strip_prefix(b";")?),
    })
}

/// Without 01's blanks, the bytes 09 to 0D and 20 (hexadecimal), at both ends.
fn trim(text: &[u8]) -> &[u8] {
    let is_other = |byte: &u8| !matches!(byte, 0x09..=0x0d | 0x20);
    let begin = text.iter().position(is_other).unwrap_or(text.len());
    let end = text.iter().rposition(is_other).map_or(begin, |at| at + 1);
    &text[begin..end]
}
