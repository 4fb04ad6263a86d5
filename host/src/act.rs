//! Actions with their texts.

use crate::records::Action;

/// An action with its number or texts, as a gateway reads it in a rule. The kinds that the phase loop does not know are
/// left out of a rule set, or are [`Act::Other`].
#[derive(Debug, Clone, Copy, PartialEq, Eq, Hash)]
pub enum Act<'a> {
    /// A kind without an effect in the phase loop.
    Other,
    /// Stops with 403.
    Deny,
    /// Stops with the status that the call is given.
    Block,
    /// Neither stops nor allows.
    Pass,
    /// Allows the request, in any mode.
    Allow,
    /// Stops with 302; the address.
    Redirect(&'a [u8]),
    /// Stops with 444 and drops the connection.
    Drop,
    /// No effect of its own: the link flag of the rule counts.
    Chain,
    /// Passes so many rules, at most 4294967295.
    Skip(u64),
    /// Jumps after the marker of this name.
    SkipAfter(&'a [u8]),
    /// No effect, but it is a flow action: as the last one it takes the place of a skip.
    MultiMatch,
    /// The id in the metadata.
    Id(u64),
    /// The message, which is also the log of an intervention.
    Msg(&'a [u8]),
    /// More for the log.
    LogData(&'a [u8]),
    /// The revision.
    Rev(&'a [u8]),
    /// The version.
    Ver(&'a [u8]),
    /// At most 255.
    Severity(u64),
    /// At most 255.
    Maturity(u64),
    /// At most 255.
    Accuracy(u64),
    /// A directive and its value.
    Ctl(&'a [u8], &'a [u8]),
    /// No effect; at most 65535.
    Status(u64),
}

/// The names of the kinds, in the order of 01's numbers.
const NAMES: [&str; 21] = [
    "other",
    "deny",
    "block",
    "pass",
    "allow",
    "redirect",
    "drop",
    "chain",
    "skip",
    "skipAfter",
    "multiMatch",
    "id",
    "msg",
    "logdata",
    "rev",
    "ver",
    "severity",
    "maturity",
    "accuracy",
    "ctl",
    "status",
];

impl<'a> Act<'a> {
    /// The action of a kind, with the number or the texts that the kind has; none where 01 has no such kind.
    ///
    /// ```
    /// use tivembo::Act;
    /// assert_eq!(Act::of(8, 2, b"", b""), Some(Act::Skip(2)));
    /// assert_eq!(Act::of(21, 0, b"", b""), None);
    /// ```
    pub fn of(kind: u64, number: u64, text: &'a [u8], value: &'a [u8]) -> Option<Self> {
        Some(match kind {
            0 => Act::Other,
            1 => Act::Deny,
            2 => Act::Block,
            3 => Act::Pass,
            4 => Act::Allow,
            5 => Act::Redirect(text),
            6 => Act::Drop,
            7 => Act::Chain,
            8 => Act::Skip(number),
            9 => Act::SkipAfter(text),
            10 => Act::MultiMatch,
            11 => Act::Id(number),
            12 => Act::Msg(text),
            13 => Act::LogData(text),
            14 => Act::Rev(text),
            15 => Act::Ver(text),
            16 => Act::Severity(number),
            17 => Act::Maturity(number),
            18 => Act::Accuracy(number),
            19 => Act::Ctl(text, value),
            20 => Act::Status(number),
            _ => return None,
        })
    }

    /// The action that a record is, none where its kind is unknown or a part is not inside the text.
    pub fn from_record(record: &Action, text: &'a [u8]) -> Option<Self> {
        let value = record.value.of(text)?;
        Self::of(record.kind, record.number, record.text.of(text)?, value)
    }

    /// What the action's record holds: 01's number of the kind, the number, and the two texts; 0 and empty where the kind
    /// has none.
    pub fn fields(&self) -> (u64, u64, &'a [u8], &'a [u8]) {
        let plain = |kind| (kind, 0, &b""[..], &b""[..]);
        let number = |kind, number| (kind, number, &b""[..], &b""[..]);
        let text = |kind, text| (kind, 0, text, &b""[..]);
        match *self {
            Act::Other => plain(0),
            Act::Deny => plain(1),
            Act::Block => plain(2),
            Act::Pass => plain(3),
            Act::Allow => plain(4),
            Act::Redirect(url) => text(5, url),
            Act::Drop => plain(6),
            Act::Chain => plain(7),
            Act::Skip(count) => number(8, count),
            Act::SkipAfter(name) => text(9, name),
            Act::MultiMatch => plain(10),
            Act::Id(id) => number(11, id),
            Act::Msg(msg) => text(12, msg),
            Act::LogData(logdata) => text(13, logdata),
            Act::Rev(rev) => text(14, rev),
            Act::Ver(ver) => text(15, ver),
            Act::Severity(severity) => number(16, severity),
            Act::Maturity(maturity) => number(17, maturity),
            Act::Accuracy(accuracy) => number(18, accuracy),
            Act::Ctl(directive, value) => (19, 0, directive, value),
            Act::Status(status) => number(20, status),
        }
    }

    /// The name of the kind, as the case format has it.
    pub fn name(&self) -> &'static str {
        NAMES[self.fields().0 as usize]
    }

    /// The number of the kind with this name.
    ///
    /// ```
    /// assert_eq!(tivembo::Act::kind_named("skipAfter"), Some(9));
    /// ```
    pub fn kind_named(name: &str) -> Option<u64> {
        let at = NAMES.iter().position(|known| *known == name)?;
        Some(at as u64)
    }
}
