//! Actions by name, with their numbers and texts.

use std::fmt;

use crate::text::quoted;
use crate::words::words;

words! {
    /// The kinds of actions, in the order of 01's numbers.
    Kind:
    /// A kind without an effect in the phase loop.
    Other = "other",
    /// Stops with 403.
    Deny = "deny",
    /// Stops with the case's block status.
    Block = "block",
    /// Neither stops nor allows.
    Pass = "pass",
    /// Allows the request.
    Allow = "allow",
    /// Stops with 302; the address.
    Redirect = "redirect",
    /// Stops with 444 and drops the connection.
    Drop = "drop",
    /// No effect of its own: a rule's `link` counts.
    Chain = "chain",
    /// Passes so many rules.
    Skip = "skip",
    /// Jumps after the marker of this name.
    SkipAfter = "skipAfter",
    /// A flow action without an effect of its own.
    MultiMatch = "multiMatch",
    /// The id in the metadata.
    Id = "id",
    /// The message.
    Msg = "msg",
    /// More for the log.
    LogData = "logdata",
    /// The revision.
    Rev = "rev",
    /// The version.
    Ver = "ver",
    /// The severity.
    Severity = "severity",
    /// The maturity.
    Maturity = "maturity",
    /// The accuracy.
    Accuracy = "accuracy",
    /// A directive and its value.
    Ctl = "ctl",
    /// A status, which has no effect.
    Status = "status",
}

/// What stands after an action's name.
#[derive(Debug, Clone, Copy, PartialEq, Eq, Hash)]
pub enum Operands {
    /// Nothing.
    Nothing,
    /// A number.
    Number,
    /// A text.
    Text,
    /// Two texts: a directive and its value.
    Texts,
}

impl Kind {
    /// What an action of this kind has after its name.
    pub const fn operands(self) -> Operands {
        match self {
            Kind::Skip | Kind::Id | Kind::Status => Operands::Number,
            Kind::Severity | Kind::Maturity | Kind::Accuracy => Operands::Number,
            Kind::Redirect | Kind::SkipAfter => Operands::Text,
            Kind::Msg | Kind::LogData | Kind::Rev | Kind::Ver => Operands::Text,
            Kind::Ctl => Operands::Texts,
            _ => Operands::Nothing,
        }
    }
}

/// An action. What its kind does not have is 0 or empty.
#[derive(Debug, Clone, PartialEq, Eq, Hash)]
pub struct Action {
    kind: Kind,
    number: u64,
    text: Vec<u8>,
    value: Vec<u8>,
}

impl Action {
    /// The action that a record of 01 stands for: of its number and its two texts those are taken that the kind has.
    ///
    /// ```
    /// use case_format::{Action, Kind};
    /// assert_eq!(Action::of(Kind::Skip, 2, b"not looked at", b"").to_string(), "skip 2");
    /// assert_eq!(Action::of(Kind::Msg, 2, b"found", b"").to_string(), "msg \"found\"");
    /// assert_eq!(Action::of(Kind::Deny, 2, b"x", b"y"), Action::of(Kind::Deny, 0, b"", b""));
    /// ```
    pub fn of(kind: Kind, number: u64, text: &[u8], value: &[u8]) -> Self {
        let (number, text, value) = match kind.operands() {
            Operands::Nothing => (0, Vec::new(), Vec::new()),
            Operands::Number => (number, Vec::new(), Vec::new()),
            Operands::Text => (0, text.to_vec(), Vec::new()),
            Operands::Texts => (0, text.to_vec(), value.to_vec()),
        };
        Self {
            kind,
            number,
            text,
            value,
        }
    }

    /// The kind.
    pub fn kind(&self) -> Kind {
        self.kind
    }

    /// The number after the name, 0 where the kind has none.
    pub fn number(&self) -> u64 {
        self.number
    }

    /// The text after the name, of a `ctl` the directive; empty where the kind has none.
    pub fn text(&self) -> &[u8] {
        &self.text
    }

    /// The value of a `ctl`; empty for all other kinds.
    pub fn value(&self) -> &[u8] {
        &self.value
    }
}

impl fmt::Display for Action {
    fn fmt(&self, f: &mut fmt::Formatter<'_>) -> fmt::Result {
        let name = self.kind.word();
        match self.kind.operands() {
            Operands::Nothing => f.write_str(name),
            Operands::Number => write!(f, "{name} {}", self.number),
            Operands::Text => write!(f, "{name} {}", quoted(&self.text)),
            Operands::Texts => {
                write!(f, "{name} {} {}", quoted(&self.text), quoted(&self.value))
            }
        }
    }
}

#[cfg(test)]
mod tests {
    use super::*;

    /// 01's table of the kinds, by number.
    #[test]
    fn kinds_have_the_numbers_of_01() {
        let names = "other deny block pass allow redirect drop chain skip skipAfter multiMatch id msg logdata rev ver \
                     severity maturity accuracy ctl status";
        for (number, name) in (0..).zip(names.split(' ')) {
            let kind = Kind::from_number(number).expect("01 has 21 kinds");
            assert_eq!((kind.word(), kind.number()), (name, number));
        }
        assert_eq!(Kind::from_number(21), None);
    }
}
