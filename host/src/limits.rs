//! The limits of 01 for a rule set.

use std::error::Error;
use std::fmt;

pub(crate) use crate::constants::limits::{
    ACTIONS as MOST_ACTIONS, MARKERS as MOST_MARKERS, RANGES as MOST_RANGES, RULES as MOST_RULES,
    TARGETS as MOST_TARGETS, TEXT_BYTES as MOST_BYTES,
};

/// A limit of 01 that concerns a rule set by itself.
#[derive(Debug, Clone, Copy, PartialEq, Eq, Hash)]
pub enum Limit {
    /// More than 512 rules.
    Rules,
    /// More than 4,096 actions.
    Actions,
    /// More than 256 markers.
    Markers,
    /// More than 65,536 bytes of text.
    Text,
    /// A rule's flag for its id or its link is not 0 or 1.
    Flag,
    /// A rule's actions are not all in the action list.
    ActionsOutside,
    /// An action of an unknown kind.
    Kind,
    /// An action's number is above this one.
    Number(u64),
    /// A part is not inside the text.
    PartOutside,
    /// A marker's position is above the number of rules.
    Position,
    /// A byte of 80 (hexadecimal) or more.
    HighByte,
    /// More than 256 removed ranges in all rules together, as they are written.
    Ranges,
    /// More than 64 removed targets in all rules together.
    Targets,
}

impl Limit {
    /// The number of the refusal that a call with such a rule set is answered, where no other comes first.
    pub fn number(self) -> u64 {
        match self {
            Limit::Rules | Limit::Actions | Limit::Markers | Limit::Text => 2,
            Limit::Flag | Limit::ActionsOutside | Limit::Kind | Limit::Number(_) => 5,
            Limit::PartOutside | Limit::Position => 5,
            Limit::HighByte => 6,
            Limit::Ranges => 8,
            Limit::Targets => 9,
        }
    }
}

impl fmt::Display for Limit {
    fn fmt(&self, f: &mut fmt::Formatter<'_>) -> fmt::Result {
        match self {
            Limit::Rules => write!(f, "there are more than {MOST_RULES} rules"),
            Limit::Actions => write!(f, "there are more than {MOST_ACTIONS} actions"),
            Limit::Markers => write!(f, "there are more than {MOST_MARKERS} markers"),
            Limit::Text => write!(f, "there are more than {MOST_BYTES} bytes of text"),
            Limit::Flag => write!(f, "a flag is not 0 or 1"),
            Limit::ActionsOutside => write!(f, "the actions are not all in the action list"),
            Limit::Kind => write!(f, "the kind is unknown"),
            Limit::Number(most) => write!(f, "the number is above {most}"),
            Limit::PartOutside => write!(f, "a part is not inside the text"),
            Limit::Position => write!(f, "the position is above the number of rules"),
            Limit::HighByte => write!(f, "the text has a byte of 80 (hexadecimal) or more"),
            Limit::Ranges => write!(f, "more than {MOST_RANGES} ranges are removed up to here"),
            Limit::Targets => write!(f, "more than {MOST_TARGETS} targets are removed up to here"),
        }
    }
}

/// Where a rule set breaks a limit. All are counted from 0.
#[derive(Debug, Clone, Copy, PartialEq, Eq, Hash)]
pub enum Where {
    /// A rule's index.
    Rule(usize),
    /// An action by its position in the whole list, and the first rule that has it.
    Action {
        /// In the whole list.
        position: usize,
        /// The rule's index, and which of its actions this is.
        rule: Option<(usize, usize)>,
        /// The name of its kind, where it has one.
        name: Option<&'static str>,
    },
    /// A marker of the list.
    Marker(usize),
    /// A byte of the text.
    Byte(usize),
}

impl fmt::Display for Where {
    fn fmt(&self, f: &mut fmt::Formatter<'_>) -> fmt::Result {
        match self {
            Where::Rule(index) => write!(f, "rule {index}"),
            Where::Action {
                position,
                rule,
                name,
            } => {
                let at = rule.map_or(*position, |(_, nth)| nth);
                write!(f, "action {at}")?;
                if let Some(name) = name {
                    write!(f, " ({name})")?;
                }
                rule.map_or(Ok(()), |(index, _)| write!(f, " of rule {index}"))
            }
            Where::Marker(index) => write!(f, "marker {index}"),
            Where::Byte(at) => write!(f, "byte {at} of the text"),
        }
    }
}

/// A limit that a rule set breaks, and the first place where it does.
#[derive(Debug, Clone, Copy, PartialEq, Eq, Hash)]
pub struct Broken {
    /// What is broken.
    pub limit: Limit,
    /// Where.
    pub at: Where,
}

impl fmt::Display for Broken {
    fn fmt(&self, f: &mut fmt::Formatter<'_>) -> fmt::Result {
        write!(f, "{}: {}", self.at, self.limit)
    }
}

impl Error for Broken {}
