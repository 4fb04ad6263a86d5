//! What the Rust's types hold of all that the case format can say.

use case_format::{Action, Domain, Kind, Reason};
use published::engine::phase::Phase;

/// What can be fed to the published Rust.
#[derive(Debug, Clone, Copy, Default)]
pub struct RustDomain;

impl Domain for RustDomain {
    /// The Rust's texts are UTF-8, and its trimming knows blanks of 80 or more.
    /// Document 01 turns such bytes away, so they are not fed to it.
    fn text(&self, text: &[u8]) -> Result<(), Reason> {
        let outside = "byte of 80 or more in a text is outside the Rust's domain";
        text.is_ascii().then_some(()).ok_or(outside.into())
    }

    fn block_status(&self, status: u64) -> Result<(), Reason> {
        at_most(status, u16::MAX.into())
    }

    fn phase(&self, phase: u64) -> Result<(), Reason> {
        let known = u8::try_from(phase).ok().and_then(Phase::from_number);
        known
            .map(|_| ())
            .ok_or("the Rust has the phases 1 to 5".into())
    }

    fn action(&self, action: &Action) -> Result<(), Reason> {
        let most = match action.kind() {
            Kind::Skip => u32::MAX.into(),
            Kind::Severity | Kind::Maturity | Kind::Accuracy => u8::MAX.into(),
            Kind::Status => u16::MAX.into(),
            _ => u64::MAX,
        };
        at_most(action.number(), most)
    }

    fn position(&self, position: u64, rules: usize) -> Result<(), Reason> {
        let outside = "a marker above the rule count is outside the Rust's domain";
        let is_within = position <= rules as u64;
        is_within.then_some(()).ok_or(outside.into())
    }
}

fn at_most(number: u64, most: u64) -> Result<(), Reason> {
    let above = || format!("{number} is above what the Rust holds there");
    (number <= most).then_some(()).ok_or_else(above)
}
