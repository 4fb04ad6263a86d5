//! Where the texts of an intervention or a target are found.

use std::error::Error;
use std::fmt;

use crate::directive::{read_directive, Directive, Target};
use crate::ruleset::{Records, RuleSet};
use crate::values::Place;
use crate::Act;

/// The rule sets of the phases, one for each. A transaction holds texts as places, a phase and a position in its action
/// list, so what came about in phase 1 is found in that phase's rule set, also after phase 2.
///
/// ```
/// use tivembo::{Act, Place, RuleSet, RuleSets};
///
/// let mut headers = RuleSet::builder();
/// headers.rule(Some(10), false, &[Act::Id(10), Act::Deny, Act::Msg(b"no such station")]);
/// let headers = headers.build()?;
/// let body = RuleSet::default();
/// let rules = RuleSets::new().with(1, &headers).with(2, &body);
/// assert_eq!(rules.text(Place { phase: 1, position: 2 }), Ok(&b"no such station"[..]));
/// assert!(rules.text(Place { phase: 2, position: 2 }).is_err());
/// # Ok::<(), tivembo::Broken>(())
/// ```
#[derive(Debug, Clone, Copy, Default)]
pub struct RuleSets<'a> {
    /// By phase, from 1 on.
    sets: [Option<Records<'a>>; 5],
}

/// No text stands at this place of the rule sets that were given.
#[derive(Debug, Clone, Copy, PartialEq, Eq)]
pub struct NoSuchText(pub Place);

impl fmt::Display for NoSuchText {
    fn fmt(&self, f: &mut fmt::Formatter<'_>) -> fmt::Result {
        let Place { phase, position } = self.0;
        write!(f, "no text at action {position} of phase {phase}")
    }
}

impl Error for NoSuchText {}

impl<'a> RuleSets<'a> {
    /// Without any rule set.
    pub fn new() -> Self {
        Self::default()
    }

    /// With the rule set of a phase, 1 to 5. No other number is the phase of a place, and such a rule set is left out.
    pub fn with(self, phase: u64, rules: &'a RuleSet) -> Self {
        self.with_records(phase, rules.records())
    }

    /// The same with lent records.
    pub fn with_records(mut self, phase: u64, records: Records<'a>) -> Self {
        if let Some(set) = slot(phase).and_then(|at| self.sets.get_mut(at)) {
            *set = Some(records);
        }
        self
    }

    /// The action at a place.
    pub fn action(&self, place: Place) -> Option<Act<'a>> {
        let records = slot(place.phase).and_then(|at| self.sets.get(at));
        records?.as_ref()?.action(place.position)
    }

    /// The text of the action at a place: of a redirect, skipAfter, msg, logdata, rev or ver.
    pub fn text(&self, place: Place) -> Result<&'a [u8], NoSuchText> {
        match self.action(place) {
            Some(
                Act::Redirect(text)
                | Act::SkipAfter(text)
                | Act::Msg(text)
                | Act::LogData(text)
                | Act::Rev(text)
                | Act::Ver(text),
            ) => Ok(text),
            _ => Err(NoSuchText(place)),
        }
    }

    /// The two texts of the removed target at a place.
    pub fn target(&self, place: Place) -> Result<Target<'a>, NoSuchText> {
        if let Some(Act::Ctl(name, value)) = self.action(place) {
            if let Ok(Directive::RuleRemoveTargetById(target)) = read_directive(name, value) {
                return Ok(target);
            }
        }
        Err(NoSuchText(place))
    }
}

/// Where a phase's rule set stands.
fn slot(phase: u64) -> Option<usize> {
    usize::try_from(phase.checked_sub(1)?).ok()
}
