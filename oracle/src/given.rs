//! What a case gives, as the published types hold it. A case that is not in
//! [`RustDomain`](crate::RustDomain) is a caller's mistake.

use case_format::{Action as Given, Entry, Kind, Mode};
use published::engine::control::{RuleIdRange, TransactionControls};
use published::engine::phase::Phase;
use published::engine::ruleset::RuleEngineMode;
use published::parser::{
    Action, ControlAction, DisruptiveAction, FlowAction, LoggingAction, MetadataAction,
};

pub(crate) fn mode(mode: Mode) -> RuleEngineMode {
    match mode {
        Mode::On => RuleEngineMode::On,
        Mode::DetectionOnly => RuleEngineMode::DetectionOnly,
        Mode::Off => RuleEngineMode::Off,
    }
}

pub(crate) fn phase(number: u64) -> Phase {
    Phase::from_number(held(number)).expect("a phase is 1 to 5")
}

pub(crate) fn controls(entry: &Entry) -> TransactionControls {
    TransactionControls::at_entry(
        entry.mode.map(mode),
        ranges(&entry.ranges),
        entry.body_access,
        entry.body_processor.map(|name| name.to_string()),
    )
}

pub(crate) fn ranges(ranges: &[(u64, u64)]) -> Vec<RuleIdRange> {
    let ranges = ranges.iter();
    ranges.map(|&(s, e)| RuleIdRange::new(s, e)).collect()
}

/// An action, as the published action parser would hold it.
pub(crate) fn action(given: &Given) -> Action {
    let text = || string(given.text());
    match given.kind() {
        // A kind without any effect in the phase loop.
        Kind::Other => Action::Logging(LoggingAction::Log),
        Kind::Deny => Action::Disruptive(DisruptiveAction::Deny),
        Kind::Block => Action::Disruptive(DisruptiveAction::Block),
        Kind::Pass => Action::Disruptive(DisruptiveAction::Pass),
        Kind::Allow => Action::Disruptive(DisruptiveAction::Allow),
        Kind::Redirect => Action::Disruptive(DisruptiveAction::Redirect(text())),
        Kind::Drop => Action::Disruptive(DisruptiveAction::Drop),
        Kind::Chain => Action::Flow(FlowAction::Chain),
        Kind::Skip => Action::Flow(FlowAction::Skip(held(given.number()))),
        Kind::SkipAfter => Action::Flow(FlowAction::SkipAfter(text())),
        Kind::MultiMatch => Action::Flow(FlowAction::MultiMatch),
        Kind::Id => Action::Metadata(MetadataAction::Id(given.number())),
        Kind::Msg => Action::Metadata(MetadataAction::Msg(text())),
        Kind::LogData => Action::Metadata(MetadataAction::LogData(text())),
        Kind::Rev => Action::Metadata(MetadataAction::Rev(text())),
        Kind::Ver => Action::Metadata(MetadataAction::Ver(text())),
        Kind::Severity => Action::Metadata(MetadataAction::Severity(held(given.number()))),
        Kind::Maturity => Action::Metadata(MetadataAction::Maturity(held(given.number()))),
        Kind::Accuracy => Action::Metadata(MetadataAction::Accuracy(held(given.number()))),
        Kind::Ctl => Action::Control(control(given.text(), given.value())),
        Kind::Status => Action::Metadata(MetadataAction::Status(held(given.number()))),
    }
}

/// A directive and its value, as the published reader takes them.
pub(crate) fn control(directive: &[u8], value: &[u8]) -> ControlAction {
    ControlAction {
        directive: string(directive),
        value: string(value),
    }
}

pub(crate) fn string(text: &[u8]) -> String {
    assert!(text.is_ascii(), "a text is ASCII");
    String::from_utf8(text.to_vec()).expect("ASCII is UTF-8")
}

/// A number in the Rust's type for it.
pub(crate) fn held<T: TryFrom<u64>>(number: u64) -> T {
    let held = T::try_from(number).ok();
    held.expect("a number is within what the Rust holds there")
}
