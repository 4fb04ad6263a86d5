//! What a program takes of all that the format can say.

use crate::action::Action;
use crate::line::Reason;

/// What a program takes. The reader asks for each value right after its line was read, so that an error has that line's
/// number; for a position when its call is whole, because a marker may stand before the rules that it counts.
///
/// Everything is taken where nothing else is said.
pub trait Domain {
    /// Any text: of an action, a marker or a directive.
    fn text(&self, _text: &[u8]) -> Result<(), Reason> {
        Ok(())
    }

    /// The number of `block-status`.
    fn block_status(&self, _status: u64) -> Result<(), Reason> {
        Ok(())
    }

    /// The number of `call`.
    fn phase(&self, _phase: u64) -> Result<(), Reason> {
        Ok(())
    }

    /// An action; its texts were asked for already.
    fn action(&self, _action: &Action) -> Result<(), Reason> {
        Ok(())
    }

    /// A marker's position in a call with so many rules.
    fn position(&self, _position: u64, _rules: usize) -> Result<(), Reason> {
        Ok(())
    }
}

/// Takes every number of 64 bits and every byte.
#[derive(Debug, Clone, Copy, Default)]
pub struct Anything;

impl Domain for Anything {}
