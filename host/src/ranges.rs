//! The form in which removed ranges are held.

use std::error::Error;
use std::fmt;

/// A range: its first and its last id.
type Range = (u64, u64);

/// Why ranges are not in the form in which a transaction holds them: sorted by start, and with an id between each two. Calls and
/// questions on such a record are refused with 3.
#[derive(Debug, Clone, Copy, PartialEq, Eq, Hash)]
pub enum RangeFault {
    /// A range starts above its end.
    Backwards(Range),
    /// The second starts below the first.
    Unsorted(Range, Range),
    /// The second starts within the first.
    Overlapping(Range, Range),
    /// The second starts directly after the first.
    Touching(Range, Range),
}

impl RangeFault {
    /// The first one, from the start of the list.
    pub(crate) fn first(ranges: impl Iterator<Item = Range>) -> Option<Self> {
        let mut before = None;
        for range in ranges {
            let found = Self::at(before, range);
            if found.is_some() {
                return found;
            }
            before = Some(range);
        }
        None
    }

    /// Of a range, and the one before it, which has no fault itself.
    fn at(before: Option<Range>, range: Range) -> Option<Self> {
        if range.0 > range.1 {
            return Some(Self::Backwards(range));
        }
        let before = before?;
        match range.0 {
            start if start < before.0 => Some(Self::Unsorted(before, range)),
            start if start <= before.1 => Some(Self::Overlapping(before, range)),
            start if start - before.1 == 1 => Some(Self::Touching(before, range)),
            _ => None,
        }
    }
}

impl fmt::Display for RangeFault {
    fn fmt(&self, f: &mut fmt::Formatter<'_>) -> fmt::Result {
        match *self {
            Self::Backwards((start, end)) => write!(f, "range {start}-{end} starts above its end"),
            Self::Unsorted(one, next) => write!(
                f,
                "range {}-{} stands after {}-{} and starts below it",
                next.0, next.1, one.0, one.1
            ),
            Self::Overlapping(one, next) => merge(f, one, "overlap", next),
            Self::Touching(one, next) => merge(f, one, "touch", next),
        }
    }
}

fn merge(f: &mut fmt::Formatter<'_>, one: Range, word: &str, next: Range) -> fmt::Result {
    let ((start, end), (next, last)) = (one, next);
    let whole = end.max(last);
    write!(
        f,
        "ranges {start}-{end} and {next}-{last} {word}: merged they are {start}-{whole}"
    )
}

impl Error for RangeFault {}
