//! The table of what is to be reached.

use super::Marks;

/// A run of so many calls must reach every line.
pub const FULL: u64 = 50_000;

macro_rules! features {
    ($($feature:ident = $text:literal,)*) => {
        /// A line of the table. Lines that belong together stand one below the other, and are reached by counting from the
        /// first.
        #[allow(dead_code)]
        #[derive(Debug, Clone, Copy, PartialEq, Eq)]
        pub enum Feature {
            $($feature,)*
        }

        const TEXTS: &[&str] = &[$($text,)*];

        impl Feature {
            pub const COUNT: usize = TEXTS.len();
        }
    };
}

features! {
    Phase1 = "call: phase 1",
    Phase2 = "call: phase 2",
    Phase3 = "call: phase 3",
    Phase4 = "call: phase 4",
    Phase5 = "call: phase 5",
    RuleSetOn = "call: the rule set's mode is On",
    RuleSetDetectionOnly = "call: the rule set's mode is DetectionOnly",
    RuleSetOff = "call: the rule set's mode is Off",
    OffOverruled = "call: the rule set's mode is Off, the transaction's is not",
    Status0 = "call: block status 0",
    Status65535 = "call: block status 65535",
    StatusBetween = "call: another block status but 403",
    SecondCall = "call: the second on its transaction",
    LaterCall = "call: the third or a later one on its transaction",
    OtherPhase = "call: another phase than the call before",
    SamePhase = "call: the same phase as the call before",
    ModeCarried = "call: entered with a mode that an earlier call set",
    RangesCarried = "call: entered with ranges that an earlier call added",
    RemovedByCarried = "call: a rule is removed by a range that an earlier call added",
    TargetsCarried = "call: entered with targets that an earlier call added",
    AllowedCarried = "call: entered when an earlier call had allowed",
    StoppedCarried = "call: entered when an earlier call had stopped",
    Allowed = "call: allowed before the first call",
    Stopped = "call: stopped before the first call",
    OffAtEntry = "call: mode Off at entry",
    Rules0 = "rules: none",
    Rules1 = "rules: 1",
    Rules2 = "rules: 2 to 12",
    Rules13 = "rules: 13 to 511",
    Rules512 = "rules: 512",
    Actions4096 = "actions: 4,096",
    Markers256 = "markers: 256",
    Text65536 = "text: 65,536 bytes",
    Ranges256 = "ranges: 256 held after the call",
    Ranges256Merged = "ranges: 256 held after the call, more were added and have merged",
    Targets64 = "targets: 64 held after the call",
    Answer0 = "answer: 0",
    Refused3Touch = "answer: 3, ranges held touch",
    Refused3Overlap = "answer: 3, ranges held overlap",
    Refused3Order = "answer: 3, ranges held are not sorted",
    Refused3Backwards = "answer: 3, a range held starts above its end",
    Refused3AfterLargest = "answer: 3, a range held stands after one that ends at 18446744073709551615",
    Refused8Above = "answer: 8, more than 256 would be left after merging too",
    Refused8Merged = "answer: 8, though no more than 256 would be left after merging",
    Refused8Covered = "answer: 8, though all that is added is held already",
    Refused8Full = "answer: 8, 256 ranges are held",
    Refused9 = "answer: 9",
    RefusedIdle = "answer: 3, 8 or 9 where there would be nothing to do",
    RefusedLater = "answer: 8 or 9 after an earlier call",
    Answer10 = "answer: 10",
    ErrorFirst = "answer: 10 at the first rule",
    ErrorAfterUnit = "answer: 10 after a closed unit",
    ErrorInChain = "answer: 10 in an open chain",
    ErrorRemoved = "outcome 3 at a rule that was removed",
    ErrorPassed = "outcome 3 at a rule that was passed",
    Unit1 = "unit: 1 rule",
    Unit2 = "unit: 2 rules",
    Unit3 = "unit: 3 rules",
    Unit4 = "unit: 4 rules",
    Unit5 = "unit: 5 rules",
    Unit6 = "unit: 6 rules",
    Unit7 = "unit: 7 rules",
    Unit8 = "unit: 8 rules",
    Unit9 = "unit: 9 rules",
    Unit10 = "unit: 10 rules",
    UnitMore = "unit: 11 rules or more",
    UnitsMany = "unit: three or more in a call",
    MissedAlone = "chain: a rule missed outside of any",
    MissedStarter = "chain: the first link missed",
    MissedLink = "chain: a later link missed",
    MissedClosing = "chain: the closing rule missed",
    RemovedStarter = "chain: the first link removed",
    RemovedLink = "chain: a later link removed",
    RemovedInChain = "chain: a rule that is no link removed, the chain stays open and closes",
    RemovedInChainOpen = "chain: a rule that is no link removed, the chain stays open to the end",
    RemovedAlone = "chain: a rule removed outside of any",
    LeftOpen = "chain: left open at the end",
    LastIsLink = "chain: the last rule is a link",
    LostControls = "chain: broken, with a control in a link that had matched",
    Skip0 = "flow: skip 0",
    SkipSome = "flow: skip to a rule that is then evaluated",
    SkipOverChain = "flow: skip over a whole chain",
    SkipIntoLink = "flow: skip into a chain, to a link that becomes a starter",
    SkipIntoClosing = "flow: skip into a chain, to its closing rule",
    SkipBeyond = "flow: skip beyond the last rule",
    SkipLargest = "flow: skip 4294967295",
    SkipOfChain = "flow: skip of a unit of several rules",
    SkipReplaced = "flow: a skip and then multiMatch or chain, which takes its place",
    FlowRepeated = "flow: two or more flow actions",
    ChainActionLast = "flow: a chain action is the last flow action of a closed unit",
    FlowOfLaterMember = "flow: only a later member has a flow action",
    MarkerMissing = "marker: no record of the name",
    MarkerAt0 = "marker: at 0",
    MarkerBehindUs = "marker: before the index after the closing rule",
    MarkerDirectly = "marker: directly after the closing rule (C8)",
    MarkerAhead = "marker: further on, jumped to",
    MarkerAtEnd = "marker: at the rule count",
    MarkerIntoChain = "marker: jumped to within a chain",
    MarkerRepeated = "marker: its name is repeated",
    MarkerLatest = "marker: repeated, and the first record would lead elsewhere",
    MarkerCase = "marker: another name differs in case only",
    MarkerEmpty = "marker: the empty name",
    JumpOfChain = "marker: jump of a unit of several rules",
    NoneOn = "unit without disruptive action, mode On",
    NoneDetectionOnly = "unit without disruptive action, mode DetectionOnly",
    NoneOff = "unit without disruptive action, mode Off",
    DenyOn = "deny, mode On",
    DenyDetectionOnly = "deny, mode DetectionOnly",
    DenyOff = "deny, mode Off",
    BlockOn = "block, mode On",
    BlockDetectionOnly = "block, mode DetectionOnly",
    BlockOff = "block, mode Off",
    PassOn = "pass, mode On",
    PassDetectionOnly = "pass, mode DetectionOnly",
    PassOff = "pass, mode Off",
    AllowOn = "allow, mode On",
    AllowDetectionOnly = "allow, mode DetectionOnly",
    AllowOff = "allow, mode Off",
    RedirectOn = "redirect, mode On",
    RedirectDetectionOnly = "redirect, mode DetectionOnly",
    RedirectOff = "redirect, mode Off",
    DropOn = "drop, mode On",
    DropDetectionOnly = "drop, mode DetectionOnly",
    DropOff = "drop, mode Off",
    DisruptiveRepeated = "disruptive: unlike ones in a starter, the last wins",
    DisruptiveOfLaterMember = "disruptive: only a later member has one",
    ModeSpares = "mode: the unit's own control ends On, so it does not stop",
    ModeStops = "mode: the unit's own control sets On, so it stops",
    ModeOffEnds = "mode: a control sets Off, rules are left",
    ModeTwice = "mode: set twice by a unit, to unlike values",
    ModeOfLink = "mode: set by a link that is not the closing rule",
    SetOn = "control: mode On after the call",
    SetDetectionOnly = "control: mode DetectionOnly after the call",
    SetOff = "control: mode Off after the call",
    AccessOn = "control: body access On after the call",
    AccessOff = "control: body access Off after the call",
    Urlencoded = "control: processor URLENCODED after the call",
    Multipart = "control: processor MULTIPART after the call",
    Json = "control: processor JSON after the call",
    Xml = "control: processor XML after the call",
    RangesAdded = "control: ranges added",
    RangesFewer = "control: ranges added, and fewer are held than before",
    RangesSame = "control: ranges added, and the same are held as before",
    TargetAdded = "control: targets added",
    TargetDropped = "control: a target whose variable is unknown",
    NameFolded = "control: a directive in other letters, supported",
    NameTrimmed = "control: a directive with blanks around it, supported",
    ValueTrimmed = "control: a value with blanks around it, supported",
    RemovesNext = "control: removes the next rule",
    MergeNothingHeld = "merge: nothing is held, a range is added",
    MergeNoneFirst = "merge: with none, before all that are held",
    MergeNoneBetween = "merge: with none, between two that are held",
    MergeNoneLast = "merge: with none, after all that are held",
    MergeNotAround = "merge: 0 is added and the largest number held, or the other way round: with none",
    MergeTouchesBelow = "merge: with one, touches it from below",
    MergeTouchesAbove = "merge: with one, touches it from above",
    MergeOverlapsBelow = "merge: with one, overlaps it from below",
    MergeOverlapsAbove = "merge: with one, overlaps it from above",
    MergeCovered = "merge: with one, which covers it already",
    MergeCovers = "merge: with one, which it covers",
    MergeTwo = "merge: bridges two",
    MergeSeveral = "merge: bridges three or more",
    MergeEntry = "merge: with one held before the first call",
    MergeCarried = "merge: with one that earlier calls left",
    MergeOwn = "merge: with one of the same call",
    MergeAt0 = "merge: at 0",
    MergeAtLargest = "merge: at 18446744073709551615",
    MergeTouchesLargest = "merge: 18446744073709551615 touches the number below it",
    RangeStart = "range: a removed id is the start",
    RangeEnd = "range: a removed id is the end, the start another",
    RangeInside = "range: a removed id lies inside",
    RangeBelow = "range: an evaluated id is one below the start",
    RangeAbove = "range: an evaluated id is one above the end",
    RangeAll = "range: removes 0",
    RangeLargest = "range: removes 18446744073709551615",
    RangeNoId = "range: a rule without id is evaluated though the id that it does not have lies inside",
    Id0 = "id: 0 listed",
    IdLargest = "id: 18446744073709551615 listed",
    IdNone = "id: a unit without one to list",
    IdOfStarterOnly = "id: the closing rule has another, which is not listed (C6)",
    IdActionUnlike = "id: the starter's id action is unlike its id",
    IdActionsSeveral = "id: several id actions in a starter",
    DataOwn = "data: a later member's own id",
    DataStarter = "data: the starter's id for a member without one",
    DataNone = "data: without id",
    DataSome = "data: a unit with both outcomes 1 and 2",
    StopIdsNone = "intervention: no ids",
    StopIdsClosing = "intervention: the closing rule's id alone, the starter has no id action",
    StopIdsSame = "intervention: both ids are the same",
    StopIdsStarter = "intervention: the starter's id alone (C5)",
    StopIdsBoth = "intervention: two ids",
    StopOfChain = "intervention: of a unit of several rules",
    StopBlock0 = "intervention: block with status 0",
    StopBlock65535 = "intervention: block with status 65535",
    StopUrlEmpty = "intervention: an empty address",
    StopMsg = "intervention: msg and log",
    StopLogdata = "intervention: logdata",
    StopRev = "intervention: rev",
    StopVer = "intervention: ver",
    StopSeverity = "intervention: severity",
    StopMaturity = "intervention: maturity",
    StopAccuracy = "intervention: accuracy",
    Stop255 = "intervention: one of these numbers is 255",
    StopRepeated = "intervention: a kind of metadata is repeated in the starter, unlike",
    StopIgnored = "intervention: a later member has metadata",
    StopStatusAction = "intervention: deny, and a status action in the starter (C15)",
    UnsupportedMode = "unsupported: the mode value",
    UnsupportedIds = "unsupported: the id list",
    UnsupportedTarget = "unsupported: the target form",
    UnsupportedAccess = "unsupported: the body access value",
    UnsupportedProcessor = "unsupported: the processor",
    UnsupportedAudit = "unsupported: audit",
    UnsupportedUnrecognised = "unsupported: unrecognised",
    UnsupportedAlone = "unsupported: of a rule that is a unit alone",
    UnsupportedOfLink = "unsupported: of a link",
    UnsupportedOfClosing = "unsupported: of a chain's closing rule",
    UnsupportedActions = "unsupported: the first of a rule's, of unlike reasons",
    UnsupportedMembers = "unsupported: the first of several members'",
    UnsupportedUnits = "unsupported: the first of several units'",
    UnsupportedStops = "unsupported: of a unit that stops",
    UnsupportedAllows = "unsupported: of a unit that allows",
    UnsupportedError = "unsupported: told with answer 10",
    UnsupportedRepeated = "unsupported: an earlier call told the same directive and value",
    UnsupportedBroken = "unsupported: of a chain that breaks, none is told",
    UnsupportedLeftOpen = "unsupported: of a chain left open, none is told",
    UnsupportedMissed = "unsupported: of a missed rule, none is told",
    UnsupportedRemoved = "unsupported: of a removed rule, none is told",
    Byte00 = "text: byte 00 in an intervention or a target",
    Byte7F = "text: byte 7F in an intervention or a target",
    TextEmpty = "text: an empty text in an intervention",
    TextOverlaps = "text: two parts that are read overlap",
    TextUnread = "text: a part of a kind without text",
    ActionsShared = "actions: two rules have the same",
    ActionsOverlap = "actions: two rules have some in common",
    ActionsUnowned = "actions: one belongs to no rule",
    SharedUnits = "actions: shared by the starters of two closed units",
}

/// Lines that only large calls reach.
const LARGE: [Feature; 5] = [
    Feature::Rules13,
    Feature::Rules512,
    Feature::Actions4096,
    Feature::Markers256,
    Feature::Text65536,
];

/// Lines of refused calls. The Rust has no results of those, so that no case is recorded with one.
const REFUSED: std::ops::RangeInclusive<usize> =
    Feature::Refused3Touch as usize..=Feature::RefusedLater as usize;

/// How many calls reached each line.
#[derive(Clone)]
pub struct Table([u64; Feature::COUNT]);

impl Default for Table {
    fn default() -> Self {
        Self([0; Feature::COUNT])
    }
}

impl Table {
    pub fn count(&mut self, marks: &Marks) {
        for at in marks.iter() {
            self.0[at] += 1;
        }
    }

    pub fn add(&mut self, other: &Table) {
        for (count, more) in self.0.iter_mut().zip(other.0) {
            *count += more;
        }
    }

    pub fn print(&self) {
        for (text, count) in TEXTS.iter().zip(self.0) {
            println!("{count:>10}  {text}");
        }
    }

    /// The lines that no call reached.
    pub fn missing(&self) -> Vec<&'static str> {
        let missing = (0..Feature::COUNT).filter(|at| self.0[*at] == 0);
        Self::texts(&missing.collect::<Vec<_>>())
    }

    /// The lines that fewer reached than so many, without those that no small call or no recorded one can.
    pub fn short(&self, many: u64) -> Vec<usize> {
        let is_large = |at: &usize| LARGE.iter().any(|it| *it as usize == *at);
        let is_short = |at: &usize| self.0[*at] < many && !is_large(at) && !REFUSED.contains(at);
        (0..Feature::COUNT).filter(is_short).collect()
    }

    pub fn texts(lines: &[usize]) -> Vec<&'static str> {
        lines.iter().map(|at| TEXTS[*at]).collect()
    }
}
