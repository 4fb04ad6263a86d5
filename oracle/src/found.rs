//! What the published types hold after a call, as results of the case format.

use case_format::{BodyProcessor, DirectiveAnswer, Mode, UnsupportedReason};
use published::engine::control::{CtlDirective, RuleIdRange};
use published::engine::intervention::Intervention;
use published::engine::ruleset::RuleEngineMode;

pub(crate) fn mode(mode: RuleEngineMode) -> Mode {
    match mode {
        RuleEngineMode::On => Mode::On,
        RuleEngineMode::DetectionOnly => Mode::DetectionOnly,
        RuleEngineMode::Off => Mode::Off,
    }
}

/// The Rust has the name in capitals.
pub(crate) fn body_processor(name: &str) -> BodyProcessor {
    let known = BodyProcessor::from_word(name);
    known.expect("the Rust gives one of four names")
}

pub(crate) fn ranges(ranges: &[RuleIdRange]) -> Vec<(u64, u64)> {
    ranges.iter().map(RuleIdRange::ends).collect()
}

/// An id: the Rust has it as a text, which must be the number's plain decimal.
pub(crate) fn id(id: &str) -> u64 {
    let is_plain = id == "0" || !id.starts_with(['0', '+']);
    let number = id.parse().ok().filter(|_| is_plain);
    number.unwrap_or_else(|| panic!("{id:?} is not the plain decimal of a number"))
}

pub(crate) fn ids<T: AsRef<str>>(ids: &[T]) -> Vec<u64> {
    ids.iter().map(|text| id(text.as_ref())).collect()
}

pub(crate) fn intervention(new: &Intervention) -> case_format::Intervention {
    let [metadata] = new.metadata.as_slice() else {
        panic!("an intervention has one rule's metadata: {new:?}");
    };
    let text = |text: &Option<String>| text.clone().map(String::into_bytes);
    case_format::Intervention {
        status: new.status.into(),
        drop: new.drop_connection,
        url: text(&new.url),
        log: text(&new.log),
        ids: ids(&new.rule_ids),
        phase: new.phase.number().into(),
        id: metadata.id.as_deref().map(id),
        msg: text(&metadata.msg),
        logdata: text(&metadata.logdata),
        rev: text(&metadata.rev),
        ver: text(&metadata.ver),
        severity: metadata.severity.map(u64::from),
        maturity: metadata.maturity.map(u64::from),
        accuracy: metadata.accuracy.map(u64::from),
    }
}

/// The published sentences that say why a directive is unsupported, in the order of 02's numbers.
const SENTENCES: [&str; 7] = [
    "ruleEngine accepts only On, Off or DetectionOnly",
    "ruleRemoveById expects a rule ID or an ID range such as 942100-942999",
    "ruleRemoveTargetById expects ID;TARGET, for example 942100;ARGS:token",
    "requestBodyAccess accepts only On or Off",
    "requestBodyProcessor accepts only URLENCODED, MULTIPART, JSON or XML",
    "this engine has no audit log subsystem, so there is nothing to control",
    "unrecognised ctl directive",
];

/// The reason that a published sentence gives.
pub fn reason(sentence: &str) -> UnsupportedReason {
    let known = SENTENCES.iter().position(|known| *known == sentence);
    let reason = known.map(|at| UnsupportedReason::ALL[at]);
    reason.unwrap_or_else(|| panic!("{sentence:?} is none of the seven reasons"))
}

/// What the published reader made of a directive.
pub fn directive_answer(directive: &CtlDirective) -> DirectiveAnswer {
    match directive {
        CtlDirective::RuleEngine(set) => DirectiveAnswer::Engine(mode(*set)),
        CtlDirective::RuleRemoveById(removed) => DirectiveAnswer::Ranges(ranges(removed)),
        CtlDirective::RuleRemoveTargetById { rule_id, target } => {
            DirectiveAnswer::Target(rule_id.clone().into_bytes(), target.clone().into_bytes())
        }
        CtlDirective::RequestBodyAccess(on) => DirectiveAnswer::BodyAccess(*on),
        CtlDirective::RequestBodyProcessor(name) => {
            DirectiveAnswer::BodyProcessor(body_processor(name))
        }
        CtlDirective::Unsupported {
            reason: sentence, ..
        } => DirectiveAnswer::Unsupported(reason(sentence)),
    }
}

#[cfg(test)]
mod tests {
    use super::*;
    use crate::directive;

    /// 02's numbers, by the directive's name.
    #[test]
    fn each_reason_has_its_number() {
        for (name, value, number) in [
            ("ruleEngine", "Yes", 1),
            ("ruleRemoveById", "1,5-4", 2),
            ("ruleRemoveTargetById", "942100", 3),
            ("requestBodyAccess", "DetectionOnly", 4),
            ("requestBodyProcessor", "YAML", 5),
            ("auditEngine", "On", 6),
            ("auditLogParts", "", 6),
            ("ruleRemoveByTag", "x", 7),
            ("\t", "On", 7),
        ] {
            let read = directive(name.as_bytes(), value.as_bytes());
            let line = directive_answer(&read).to_string();
            assert_eq!(line, format!("unsupported {number}"), "{name}={value}");
        }
    }

    #[test]
    #[should_panic(expected = "is none of the seven reasons")]
    fn another_sentence_stops() {
        reason("ruleEngine accepts only On or Off");
    }
}
