//! What a text asks for: cases, and questions to the directive reader.

use crate::action::Action;
use crate::words::{BodyProcessor, Mode, Outcome};

/// One thing that a text asks for.
#[derive(Debug, Clone, PartialEq, Eq)]
pub enum Item {
    /// A transaction and calls on it.
    Case(Case),
    /// A `ctl` line outside a case.
    Directive(Directive),
}

/// A directive and its value, given to the directive reader alone.
#[derive(Debug, Clone, PartialEq, Eq)]
pub struct Directive {
    /// The directive's name.
    pub name: Vec<u8>,
    /// Its value.
    pub value: Vec<u8>,
}

/// One transaction and its calls.
#[derive(Debug, Clone, PartialEq, Eq)]
pub struct Case {
    /// Letters, digits, `-` and `.`.
    pub name: String,
    /// The rule set's mode.
    pub mode: Mode,
    /// The caller's default status, for block.
    pub block_status: u64,
    /// What the transaction holds before the first call.
    pub entry: Entry,
    /// One or more.
    pub calls: Vec<Call>,
}

/// What a transaction holds before its first call. None where nothing set it.
#[derive(Debug, Clone, Default, PartialEq, Eq)]
pub struct Entry {
    /// The mode that a control has set.
    pub mode: Option<Mode>,
    /// Whether a control has set body access On or Off.
    pub body_access: Option<bool>,
    /// The body processor that a control has set.
    pub body_processor: Option<BodyProcessor>,
    /// The removed ranges, as written. Where they are not sorted and merged, every call is to be answered 3.
    pub ranges: Vec<(u64, u64)>,
    /// The request is allowed already.
    pub allowed: bool,
    /// An intervention is held already.
    pub stopped: bool,
}

/// One phase call with its rules and marker records.
#[derive(Debug, Clone, PartialEq, Eq)]
pub struct Call {
    /// The phase's number.
    pub phase: u64,
    /// The phase's rules, in order.
    pub rules: Vec<Rule>,
    /// In record order.
    pub markers: Vec<Marker>,
}

/// A rule and the outcome that it is given.
#[derive(Debug, Clone, PartialEq, Eq)]
pub struct Rule {
    /// None is written `-`.
    pub id: Option<u64>,
    /// Whether the next rule belongs to the same chain.
    pub link: bool,
    /// What its evaluation finds.
    pub outcome: Outcome,
    /// In order.
    pub actions: Vec<Action>,
}

/// A marker record.
#[derive(Debug, Clone, PartialEq, Eq)]
pub struct Marker {
    /// The name that a skipAfter gives.
    pub name: Vec<u8>,
    /// How many of the phase's rules stand before it.
    pub position: u64,
}
