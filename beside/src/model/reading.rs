//! Wrong readings of the papers that can be planted.

/// A wrong reading. The first six are 01's "Readings that tempt", the last six are of 02.
#[derive(Debug, Clone, Copy, PartialEq, Eq)]
pub enum Reading {
    RangeShort,
    JumpDirectlyBehind,
    ClosingIdListed,
    ModeBeforeControls,
    LinkControlsEarly,
    AllowWaits,
    FirstMarker,
    FirstDisruptive,
    ClosingMetadata,
    StatusActs,
    RemovedCloserBreaks,
    RemovedLinkAlone,
    LastUnsupported,
    UnsupportedAtStarter,
    TouchingApart,
    SmallerEnd,
    EightAfterMerging,
    ThreeLetsTouchingIn,
}

/// All of them, with their names and what they say.
pub const READINGS: [(&str, Reading, &str); 18] = [
    (
        "range-short",
        Reading::RangeShort,
        "a range stops short of its end",
    ),
    (
        "jump-directly-after",
        Reading::JumpDirectlyBehind,
        "skipAfter jumps to a marker directly after the closing rule (C8)",
    ),
    (
        "closing-id-listed",
        Reading::ClosingIdListed,
        "the closing rule's id is among the matched ids (C6)",
    ),
    (
        "mode-before-controls",
        Reading::ModeBeforeControls,
        "the mode is tested before the unit's own controls",
    ),
    (
        "link-controls-early",
        Reading::LinkControlsEarly,
        "a link's controls act before its chain closes",
    ),
    (
        "allow-waits",
        Reading::AllowWaits,
        "allow takes effect in On only",
    ),
    (
        "first-marker",
        Reading::FirstMarker,
        "for a repeated marker name the first record decides",
    ),
    (
        "first-disruptive",
        Reading::FirstDisruptive,
        "the first disruptive action wins",
    ),
    (
        "closing-metadata",
        Reading::ClosingMetadata,
        "an intervention has the closing rule's metadata",
    ),
    (
        "status-acts",
        Reading::StatusActs,
        "a status action sets the status of deny (C15)",
    ),
    (
        "removed-closer-breaks",
        Reading::RemovedCloserBreaks,
        "a removed rule that is not a link breaks the open chain (C10)",
    ),
    (
        "removed-link-alone",
        Reading::RemovedLinkAlone,
        "a removed link is passed alone",
    ),
    (
        "last-unsupported",
        Reading::LastUnsupported,
        "the last unsupported directive is told, not the first",
    ),
    (
        "unsupported-at-starter",
        Reading::UnsupportedAtStarter,
        "an unsupported directive is told with the index of its unit's starter",
    ),
    (
        "touching-apart",
        Reading::TouchingApart,
        "ranges that touch are not merged",
    ),
    (
        "smaller-end",
        Reading::SmallerEnd,
        "of ranges that are merged the smallest end stays",
    ),
    (
        "eight-after-merging",
        Reading::EightAfterMerging,
        "8 counts the ranges held and the phase's own after merging all of them",
    ),
    (
        "three-lets-touching-in",
        Reading::ThreeLetsTouchingIn,
        "3 lets ranges in that touch",
    ),
];
