//! The directives, from 01's "Corners first" and 02's seven reasons: `CtlDirective::parse`.

use case_format::{BodyProcessor, DirectiveAnswer as Directive, Mode, UnsupportedReason as Reason};

const MODES: [(&[u8], Mode); 3] = [
    (b"On", Mode::On),
    (b"DetectionOnly", Mode::DetectionOnly),
    (b"Off", Mode::Off),
];
const ACCESS: [(&[u8], bool); 2] = [(b"On", true), (b"Off", false)];
const PROCESSORS: [(&[u8], BodyProcessor); 4] = [
    (b"URLENCODED", BodyProcessor::Urlencoded),
    (b"MULTIPART", BodyProcessor::Multipart),
    (b"JSON", BodyProcessor::Json),
    (b"XML", BodyProcessor::Xml),
];

/// What a directive says. None is refused: this reads what can be read.
pub fn read(name: &[u8], value: &[u8]) -> Directive {
    let (name, value) = (trimmed(name), trimmed(value));
    let is = |known: &[u8]| name.eq_ignore_ascii_case(known);
    if is(b"ruleEngine") {
        let mode = among(&MODES, value).map(Directive::Engine);
        mode.unwrap_or(Directive::Unsupported(Reason::ModeValue))
    } else if is(b"ruleRemoveById") {
        let ranges = ranges(value).map(Directive::Ranges);
        ranges.unwrap_or(Directive::Unsupported(Reason::IdList))
    } else if is(b"ruleRemoveTargetById") {
        let target = target(value);
        target.unwrap_or(Directive::Unsupported(Reason::TargetForm))
    } else if is(b"requestBodyAccess") {
        let access = among(&ACCESS, value).map(Directive::BodyAccess);
        access.unwrap_or(Directive::Unsupported(Reason::BodyAccessValue))
    } else if is(b"requestBodyProcessor") {
        let processor = among(&PROCESSORS, value).map(Directive::BodyProcessor);
        processor.unwrap_or(Directive::Unsupported(Reason::Processor))
    } else if is(b"auditEngine") || is(b"auditLogParts") {
        Directive::Unsupported(Reason::Audit)
    } else {
        Directive::Unsupported(Reason::Unrecognised)
    }
}

/// "trimmed of bytes 09 to 0D and 20 (hexadecimal)"
pub fn trimmed(text: &[u8]) -> &[u8] {
    let is_solid = |byte: &u8| !matches!(byte, 0x09..=0x0D | 0x20);
    let start = text.iter().position(is_solid).unwrap_or(text.len());
    let end = text.iter().rposition(is_solid).map_or(start, |at| at + 1);
    &text[start..end]
}

fn among<T: Copy>(known: &[(&[u8], T)], value: &[u8]) -> Option<T> {
    let mut known = known.iter();
    let found = known.find(|(name, _)| name.eq_ignore_ascii_case(value))?;
    Some(found.1)
}

/// "cut at the first ";", both sides trimmed and not empty"
fn target(value: &[u8]) -> Option<Directive> {
    let (id, target) = cut(value, b';')?;
    let is_empty = id.is_empty() || target.is_empty();
    (!is_empty).then(|| Directive::Target(id.to_vec(), target.to_vec()))
}

/// Both sides of the first such byte, trimmed.
fn cut(text: &[u8], at: u8) -> Option<(&[u8], &[u8])> {
    let place = text.iter().position(|byte| *byte == at)?;
    Some((trimmed(&text[..place]), trimmed(&text[place + 1..])))
}

/// "One bad part, start above end, or no part at all makes the whole directive unsupported."
fn ranges(value: &[u8]) -> Option<Vec<(u64, u64)>> {
    let parts = value.split(|byte| *byte == b',').map(trimmed);
    let solid = parts.filter(|part| !part.is_empty());
    let ranges = solid.map(range).collect::<Option<Vec<_>>>()?;
    (!ranges.is_empty()).then_some(ranges)
}

/// "A part is a number, or two numbers around its first "-", each trimmed."
fn range(part: &[u8]) -> Option<(u64, u64)> {
    let (start, end) = cut(part, b'-').unwrap_or((part, part));
    let (start, end) = (number(start)?, number(end)?);
    (start <= end).then_some((start, end))
}

/// "an optional "+" and one or more digits, at most 18446744073709551615"
fn number(text: &[u8]) -> Option<u64> {
    let digits = text.strip_prefix(b"+").unwrap_or(text);
    if digits.is_empty() || !digits.iter().all(u8::is_ascii_digit) {
        return None;
    }
    let mut number: u64 = 0;
    for digit in digits {
        let digit = u64::from(digit - b'0');
        number = number.checked_mul(10)?.checked_add(digit)?;
    }
    Some(number)
}
