//! The crate's own enums have the numbers that the sources give to their cases.

use tivembo::constants::{directive, kinds, mode, mode_setting, processor, reason, verdict};
use tivembo::raw::read_directive;
use tivembo::{Act, BodyProcessor, Mode, UnsupportedReason, Verdict};

#[test]
fn modes() {
    let numbers = [mode::ON, mode::DETECTION_ONLY, mode::OFF];
    let modes = [Mode::On, Mode::DetectionOnly, Mode::Off];
    assert_eq!(modes.map(Mode::number), numbers);
    assert_eq!(numbers.map(Mode::from_number), modes.map(Some));
    assert_eq!(mode_setting::UNSET, 0);
    assert_eq!(mode_setting::OFF, 1 + mode::OFF);
}

#[test]
fn verdicts() {
    let numbers = [
        verdict::MISSED,
        verdict::MATCHED,
        verdict::REMOVED,
        verdict::ERROR,
    ];
    let verdicts = [
        Verdict::Missed,
        Verdict::Matched,
        Verdict::Removed,
        Verdict::Error,
    ];
    assert_eq!(numbers.map(Verdict::from_number), verdicts.map(Some));
}

#[test]
fn processors() {
    let numbers = [
        processor::URLENCODED,
        processor::MULTIPART,
        processor::JSON,
        processor::XML,
    ];
    let processors = [
        BodyProcessor::Urlencoded,
        BodyProcessor::Multipart,
        BodyProcessor::Json,
        BodyProcessor::Xml,
    ];
    let found = numbers.map(BodyProcessor::from_number);
    assert_eq!(found, processors.map(Some));
}

#[test]
fn reasons() {
    let numbers = [
        reason::MODE_VALUE,
        reason::ID_LIST,
        reason::TARGET_FORM,
        reason::BODY_ACCESS_VALUE,
        reason::PROCESSOR,
        reason::AUDIT,
        reason::UNRECOGNISED,
    ];
    let reasons = [
        UnsupportedReason::ModeValue,
        UnsupportedReason::IdList,
        UnsupportedReason::TargetForm,
        UnsupportedReason::BodyAccessValue,
        UnsupportedReason::Processor,
        UnsupportedReason::Audit,
        UnsupportedReason::Unrecognised,
    ];
    assert_eq!(reasons.map(UnsupportedReason::number), numbers);
    let found = numbers.map(UnsupportedReason::from_number);
    assert_eq!(found, reasons.map(Some));
    let others = [0, 8, u64::MAX].map(UnsupportedReason::from_number);
    assert_eq!(others, [None; 3]);
}

#[test]
fn directives() {
    let form = |name: &[u8], value: &[u8]| read_directive(name, value, &mut [0], &mut [0]).form;
    assert_eq!(form(b"auditEngine", b"On"), directive::UNSUPPORTED);
    assert_eq!(form(b"ruleEngine", b"On"), directive::RULE_ENGINE);
    let removal = form(b"ruleRemoveById", b"1");
    assert_eq!(removal, directive::RULE_REMOVE_BY_ID);
}

#[test]
fn kinds_of_actions() {
    let kind = |act: Act| act.fields().0;
    assert_eq!(kind(Act::Deny), kinds::DENY);
    assert_eq!(kind(Act::Block), kinds::BLOCK);
    assert_eq!(kind(Act::Pass), kinds::PASS);
    assert_eq!(kind(Act::Allow), kinds::ALLOW);
    assert_eq!(kind(Act::Redirect(b"")), kinds::REDIRECT);
    assert_eq!(kind(Act::Drop), kinds::DROP);
    assert_eq!(kind(Act::Chain), kinds::CHAIN);
    assert_eq!(kind(Act::Skip(1)), kinds::SKIP);
    assert_eq!(kind(Act::SkipAfter(b"")), kinds::SKIP_AFTER);
    assert_eq!(kind(Act::MultiMatch), kinds::MULTI_MATCH);
    assert_eq!(kind(Act::Severity(1)), kinds::SEVERITY);
    assert_eq!(kind(Act::Accuracy(1)), kinds::ACCURACY);
    assert_eq!(kind(Act::Ctl(b"", b"")), kinds::CTL);
    assert_eq!(kind(Act::Status(1)), kinds::STATUS);
}
