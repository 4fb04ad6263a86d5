//! Written by tools/declarations from the Rattle sources in crates/; not to be changed by hand.
//!
//! The records that are lent, given and answered. A record may hold any numbers at all; a call refuses what 01 does not
//! know. A comment stands where the sources have one.

#![allow(missing_docs)]

use crate::constants::limits;

/// A rule's record. `present` is 1 where the rule has an id and 0 where it has none, `link` is `is_chain`, and its
/// actions are the `count` from `first` on.
#[repr(C)]
#[derive(Debug, Clone, Copy, Default, PartialEq, Eq, Hash)]
pub struct Rule {
    /// 1 where it has an id, else 0.
    pub present: u64,
    pub id: u64,
    /// 1 where it is a link, else 0.
    pub link: u64,
    /// Its first action.
    pub first: u64,
    /// How many actions it has.
    pub count: u64,
}

/// A part of a lent text.
#[repr(C)]
#[derive(Debug, Clone, Copy, Default, PartialEq, Eq, Hash)]
pub struct Part {
    /// Its first byte.
    pub start: u64,
    /// How many bytes it has.
    pub len: u64,
}

/// An action's record: its kind, its number, and two parts of the lent text.
#[repr(C)]
#[derive(Debug, Clone, Copy, Default, PartialEq, Eq, Hash)]
pub struct Action {
    /// 01's number of the kind.
    pub kind: u64,
    /// The number of a kind that has one.
    pub number: u64,
    /// The text of a kind that has one, and the directive of a ctl.
    pub text: Part,
    /// The value of a ctl.
    pub value: Part,
}

/// A marker's record: its name, and the number of the phase's rules before it.
#[repr(C)]
#[derive(Debug, Clone, Copy, Default, PartialEq, Eq, Hash)]
pub struct Marker {
    /// Where its name stands.
    pub name: Part,
    /// The number of the phase's rules before it.
    pub position: u64,
}

/// An entry of the list of matched data. `present` is 1 where it has an id.
#[repr(C)]
#[derive(Debug, Clone, Copy, Default, PartialEq, Eq, Hash)]
pub struct DataEntry {
    /// 1 where it has an id, else 0.
    pub present: u64,
    /// The id, or 0.
    pub id: u64,
    pub phase: u64,
    /// The index of the rule that matched with a variable.
    pub index: u64,
}

/// An entry of the journal: a visited rule's index and the number of the verdict.
#[repr(C)]
#[derive(Debug, Clone, Copy, Default, PartialEq, Eq, Hash)]
pub struct JournalEntry {
    /// The rule's index.
    pub index: u64,
    /// 0 missed, 1 matched, 2 removed, 3 error.
    pub verdict: u64,
}

/// What the reader answers, the number of the directive's form, and its value.
#[repr(C)]
#[derive(Debug, Clone, Copy, Default, PartialEq, Eq, Hash)]
pub struct ReadRecord {
    /// 0 or a refusal's number.
    pub answer: u64,
    /// 0 unsupported, 1 ruleEngine, 2 ruleRemoveById, 3 ruleRemoveTargetById, 4 requestBodyAccess, 5
    /// requestBodyProcessor; 0 too where nothing was read.
    pub form: u64,
    /// The number of a reason (1 to 7), a mode, an access or a processor, how many ranges, or where a target is cut; 0
    /// where nothing was read.
    pub value: u64,
}

/// What the question answers: 0, or the number of a refusal; 1 and the position where there is a marker of the name,
/// else twice 0.
#[repr(C)]
#[derive(Debug, Clone, Copy, Default, PartialEq, Eq, Hash)]
pub struct HostMarker {
    /// 0 or a refusal's number.
    pub answer: u64,
    /// 1 where there is a marker of the name, else 0.
    pub present: u64,
    /// The position of the latest such marker, else 0.
    pub position: u64,
}

/// The settings by number, 0 where one is not set, and the arrays with how many of their places are in use.
#[repr(C)]
#[derive(Debug, Clone, Copy, PartialEq, Eq, Hash)]
pub struct HostControls {
    /// 0 not set, 1 On, 2 DetectionOnly, 3 Off.
    pub mode: u64,
    /// 0 not set, 1 On, 2 Off.
    pub access: u64,
    /// 0 not set, 1 URLENCODED, 2 MULTIPART, 3 JSON, 4 XML.
    pub processor: u64,
    /// How many ranges are held, merged.
    pub ranges: u64,
    /// How many targets are held.
    pub targets: u64,
    /// Where the ranges start: rising, each at least two above the end before it.
    pub starts: [u64; limits::RANGES],
    /// Where the ranges end; both ends are removed.
    pub ends: [u64; limits::RANGES],
    /// The phases of the targets' places.
    pub phases: [u64; limits::TARGETS],
    /// The positions of the targets' places.
    pub positions: [u64; limits::TARGETS],
}

impl Default for HostControls {
    /// Zeros alone.
    fn default() -> Self {
        Self {
            mode: 0,
            access: 0,
            processor: 0,
            ranges: 0,
            targets: 0,
            starts: [0; limits::RANGES],
            ends: [0; limits::RANGES],
            phases: [0; limits::TARGETS],
            positions: [0; limits::TARGETS],
        }
    }
}

/// A place or none.
#[repr(C)]
#[derive(Debug, Clone, Copy, Default, PartialEq, Eq, Hash)]
pub struct HostPlace {
    /// 1 where there is a place, else 0.
    pub present: u64,
    pub phase: u64,
    /// In that phase's whole action list.
    pub position: u64,
}

/// A number or none: `present` is 1 or 0.
#[repr(C)]
#[derive(Debug, Clone, Copy, Default, PartialEq, Eq, Hash)]
pub struct HostNumber {
    /// 1 where there is a number, else 0.
    pub present: u64,
    pub value: u64,
}

/// The metadata of the rule that started the unit: the last action of each kind.
#[repr(C)]
#[derive(Debug, Clone, Copy, Default, PartialEq, Eq, Hash)]
pub struct HostMetadata {
    pub id: HostNumber,
    pub msg: HostPlace,
    pub logdata: HostPlace,
    pub rev: HostPlace,
    pub ver: HostPlace,
    pub severity: HostNumber,
    pub maturity: HostNumber,
    pub accuracy: HostNumber,
}

/// An intervention or none.
#[repr(C)]
#[derive(Debug, Clone, Copy, Default, PartialEq, Eq, Hash)]
pub struct HostIntervention {
    /// 1 where there is an intervention, else 0.
    pub present: u64,
    pub status: u64,
    /// Where a redirect leads.
    pub url: HostPlace,
    /// The log text, the starter's msg.
    pub log: HostPlace,
    /// The closing rule's id.
    pub closing: HostNumber,
    /// The starter's metadata id, where it is another.
    pub starter: HostNumber,
    /// The phase in which it came about.
    pub phase: u64,
    /// 1 where the connection is dropped, else 0.
    pub drop: u64,
    /// The starter's metadata.
    pub metadata: HostMetadata,
}

/// A transaction as a host lends it.
#[repr(C)]
#[derive(Debug, Clone, Copy, Default, PartialEq, Eq, Hash)]
pub struct HostTransaction {
    /// What directives have set.
    pub controls: HostControls,
    /// 1 where the request is allowed, else 0.
    pub allowed: u64,
    /// What stops the request.
    pub intervention: HostIntervention,
    /// How many matched ids are in use.
    pub ids: u64,
    /// How many data entries are in use.
    pub entries: u64,
}

/// The numbers that a call is given: the phase, the rule set's mode, and the caller's default status, which a block
/// has.
#[repr(C)]
#[derive(Debug, Clone, Copy, Default, PartialEq, Eq, Hash)]
pub struct CallSettings {
    /// 1 to 5.
    pub phase: u64,
    /// 0 On, 1 DetectionOnly, 2 Off.
    pub mode: u64,
    /// The status that a block stands for.
    pub default_status: u64,
}

/// An unsupported directive that a phase passed over: the rule that has it, and why. Both are 0 where there is none.
#[repr(C)]
#[derive(Debug, Clone, Copy, Default, PartialEq, Eq, Hash)]
pub struct UnsupportedAt {
    /// The index of the rule that has it.
    pub index: u64,
    /// 1 mode value, 2 id list, 3 target form, 4 body access value, 5 processor, 6 audit, 7 unrecognised; 0 where there
    /// is none.
    pub reason: u64,
}

/// What a phase tells besides: how many of its visits found each verdict, and the first unsupported directive of its
/// closed units.
#[repr(C)]
#[derive(Debug, Clone, Copy, Default, PartialEq, Eq, Hash)]
pub struct Report {
    /// How many visits missed.
    pub missed: u64,
    /// How many matched.
    pub matched: u64,
    /// How many found their rule removed.
    pub removed: u64,
    /// How many met a rule error: one, with answer 10, or none.
    pub errors: u64,
    /// The first unsupported directive of its closed units.
    pub unsupported: UnsupportedAt,
}

/// What a phase call answers, the same from the walk to a host: 0, 10, or the number of a refusal; the index of the
/// rule that had the error, with 10; how many entries the journal holds; and what is told besides.
#[repr(C)]
#[derive(Debug, Clone, Copy, Default, PartialEq, Eq, Hash)]
pub struct Answer {
    /// 0, 10 or a refusal's number.
    pub answer: u64,
    /// With 10, the index of the rule in error, else 0.
    pub error: u64,
    /// How many entries the journal holds.
    pub visits: u64,
    /// What is told besides.
    pub report: Report,
}

/// The answer to a question: 0 and the number of a value, or the number of a refusal and 0.
#[repr(C)]
#[derive(Debug, Clone, Copy, Default, PartialEq, Eq, Hash)]
pub struct HostQueryAnswer {
    /// 0 or a refusal's number.
    pub answer: u64,
    /// The value, 0 after a refusal.
    pub value: u64,
}

/// The same where the value is a target.
#[repr(C)]
#[derive(Debug, Clone, Copy, Default, PartialEq, Eq, Hash)]
pub struct HostTarget {
    /// 0 or a refusal's number.
    pub answer: u64,
    /// The target's place.
    pub target: HostPlace,
}

/// The record after an addition, with its answer.
#[repr(C)]
#[derive(Debug, Clone, Copy, Default, PartialEq, Eq, Hash)]
pub struct HostChangeAnswer {
    /// 0 or a refusal's number.
    pub answer: u64,
    /// The controls after the addition, as given after a refusal.
    pub controls: HostControls,
}
