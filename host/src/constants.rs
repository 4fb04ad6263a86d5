//! Written by tools/declarations from the Rattle sources in crates/; not to be changed by hand.
//!
//! 01's numbers: limits, the widths of records that are lent as lists of numbers, kinds of actions, and the numbers
//! that stand for the cases of an enum, a module for each.

#![allow(missing_docs)]

/// 01: "more than 512 rules, 4,096 actions, 256 markers or 65,536 text bytes", "more than 256 ranges, more than 64
/// targets". The definitions name the same numbers (specs/Limits.antt); where a contract cites one of those, another
/// number here is refused.
pub mod limits {
    pub const RULES: usize = 512;
    pub const ACTIONS: usize = 4096;
    pub const MARKERS: usize = 256;
    pub const TEXT_BYTES: usize = 65536;
    pub const RANGES: usize = 256;
    pub const TARGETS: usize = 64;
}

/// How many numbers stand for one record in its lent list.
pub mod widths {
    pub const RULE: usize = 5;
    pub const ACTION: usize = 6;
    pub const MARKER: usize = 3;
    pub const DATA_ENTRY: usize = 4;
    pub const JOURNAL_ENTRY: usize = 2;
}

/// 01's numbers of the kinds of actions.
pub mod kinds {
    pub const OTHER: u64 = 0;
    pub const DENY: u64 = 1;
    pub const BLOCK: u64 = 2;
    pub const PASS: u64 = 3;
    pub const ALLOW: u64 = 4;
    pub const REDIRECT: u64 = 5;
    pub const DROP: u64 = 6;
    pub const CHAIN: u64 = 7;
    pub const SKIP: u64 = 8;
    pub const SKIP_AFTER: u64 = 9;
    pub const MULTI_MATCH: u64 = 10;
    pub const ID: u64 = 11;
    pub const MSG: u64 = 12;
    pub const LOGDATA: u64 = 13;
    pub const REV: u64 = 14;
    pub const VER: u64 = 15;
    pub const SEVERITY: u64 = 16;
    pub const MATURITY: u64 = 17;
    pub const ACCURACY: u64 = 18;
    pub const CTL: u64 = 19;
    pub const STATUS: u64 = 20;
}

/// 01: "0 (On), 1 (DetectionOnly) or 2 (Off)"
pub mod mode {
    pub const ON: u64 = 0;
    pub const DETECTION_ONLY: u64 = 1;
    pub const OFF: u64 = 2;
}

/// 01: "verdict, 0 missed, 1 matched, 2 removed, 3 error"
pub mod verdict {
    pub const MISSED: u64 = 0;
    pub const MATCHED: u64 = 1;
    pub const REMOVED: u64 = 2;
    pub const ERROR: u64 = 3;
}

/// 02: "mode value, id list, target form, body access value, processor, audit, unrecognised, numbered 1 to 7"
pub mod reason {
    pub const MODE_VALUE: u64 = 1;
    pub const ID_LIST: u64 = 2;
    pub const TARGET_FORM: u64 = 3;
    pub const BODY_ACCESS_VALUE: u64 = 4;
    pub const PROCESSOR: u64 = 5;
    pub const AUDIT: u64 = 6;
    pub const UNRECOGNISED: u64 = 7;
}

/// 01: "Number and order agree", from 1, an unknown phase or mode, to 9, too many targets
pub mod refusal {
    pub const SETTINGS: u64 = 1;
    pub const TOO_LARGE: u64 = 2;
    pub const COUNTS: u64 = 3;
    pub const OUTCOMES: u64 = 4;
    pub const RECORD: u64 = 5;
    pub const HIGH_BYTE: u64 = 6;
    pub const NO_ROOM: u64 = 7;
    pub const RANGES: u64 = 8;
    pub const TARGETS: u64 = 9;
}

/// The papers give no number to the cases below; these are ours (docs/DECISIONS.md, D12).
pub mod access {
    pub const ON: u64 = 0;
    pub const OFF: u64 = 1;
}

pub mod processor {
    pub const URLENCODED: u64 = 0;
    pub const MULTIPART: u64 = 1;
    pub const JSON: u64 = 2;
    pub const XML: u64 = 3;
}

/// a setting: 0 where it is not set, else one more than the value's number
pub mod mode_setting {
    pub const UNSET: u64 = 0;
    pub const ON: u64 = 1;
    pub const DETECTION_ONLY: u64 = 2;
    pub const OFF: u64 = 3;
}

pub mod access_setting {
    pub const UNSET: u64 = 0;
    pub const ON: u64 = 1;
    pub const OFF: u64 = 2;
}

pub mod processor_setting {
    pub const UNSET: u64 = 0;
    pub const URLENCODED: u64 = 1;
    pub const MULTIPART: u64 = 2;
    pub const JSON: u64 = 3;
    pub const XML: u64 = 4;
}

/// a directive's form
pub mod directive {
    pub const UNSUPPORTED: u64 = 0;
    pub const RULE_ENGINE: u64 = 1;
    pub const RULE_REMOVE_BY_ID: u64 = 2;
    pub const RULE_REMOVE_TARGET_BY_ID: u64 = 3;
    pub const REQUEST_BODY_ACCESS: u64 = 4;
    pub const REQUEST_BODY_PROCESSOR: u64 = 5;
}

/// a number or none: whether there is one, and the number
pub mod present {
    pub const NONE: u64 = 0;
    pub const SOME: u64 = 1;
}
