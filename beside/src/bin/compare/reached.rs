//! What a run reached, told from the cases and the Rust's results alone.

mod controls;
mod entry;
mod flow;
mod ranges;
mod records;
mod refused;
mod stops;
mod table;
mod unsupported;
mod walk;
mod walked;

use beside::case::{Call, Case};
use case_format::CallResult;

use crate::sides::{Before, Directives, Ran};

pub use table::{Feature, Table, FULL};
use walked::Walked;

/// A call, what stood before it and what the Rust made of it.
pub struct Seen<'a> {
    pub case: &'a Case,
    pub call: &'a Call,
    pub directives: &'a Directives,
    pub before: &'a Before,
    pub rust: &'a CallResult,
    /// The ranges as the Rust holds them after it, each as it was added.
    pub plain: &'a [(u64, u64)],
    plain_before: usize,
    is_refused: bool,
    walked: Walked,
}

/// The features of one call.
pub struct Marks([bool; Feature::COUNT]);

impl Default for Marks {
    fn default() -> Self {
        Self([false; Feature::COUNT])
    }
}

impl Marks {
    /// Marks what another call reached too.
    pub fn add(&mut self, other: &Marks) {
        for (mark, other) in self.0.iter_mut().zip(other.0) {
            *mark |= other;
        }
    }

    fn set(&mut self, feature: Feature) {
        self.set_if(true, feature);
    }

    fn set_if(&mut self, reached: bool, feature: Feature) {
        self.0[feature as usize] |= reached;
    }

    /// Marks the line that stands so many lines below another.
    fn set_below(&mut self, first: Feature, lines: usize) {
        self.0[first as usize + lines] = true;
    }

    /// The lines that are marked.
    pub fn iter(&self) -> impl Iterator<Item = usize> + '_ {
        (0..Feature::COUNT).filter(|at| self.0[*at])
    }
}

impl<'a> Seen<'a> {
    pub fn new(case: &'a Case, call: &'a Call, directives: &'a Directives, ran: &'a Ran) -> Self {
        let (before, rust) = (&ran.before, &ran.rust);
        Self {
            case,
            call,
            directives,
            before,
            rust,
            plain: &ran.plain,
            plain_before: ran.plain_before,
            is_refused: ran.is_refused(),
            walked: Walked::of(case, call, directives, before, rust),
        }
    }

    /// All that the call reached.
    pub fn marks(&self) -> Marks {
        let mut marks = Marks::default();
        if self.is_refused {
            refused::mark(self, &mut marks);
            return marks;
        }
        entry::mark(self, &mut marks);
        walk::mark(self, &mut marks);
        flow::mark(self, &mut marks);
        controls::mark(self, &mut marks);
        ranges::mark(self, &mut marks);
        stops::mark(self, &mut marks);
        records::mark(self, &mut marks);
        unsupported::mark(self, &mut marks);
        marks
    }

    /// The ranges that the call added, as written.
    fn added(&self) -> &'a [(u64, u64)] {
        &self.plain[self.plain_before..]
    }

    /// The last of a rule's actions that is of one of these kinds.
    fn last_of(
        &self,
        rule: usize,
        kinds: std::ops::RangeInclusive<u64>,
    ) -> Option<&tivembo::Action> {
        let mut actions = self.call.actions_of(rule).iter();
        actions.rfind(|action| kinds.contains(&action.kind))
    }

    /// How many of a rule's actions are of these kinds.
    fn count_of(&self, rule: usize, kinds: std::ops::RangeInclusive<u64>) -> usize {
        let actions = self.call.actions_of(rule).iter();
        actions
            .filter(|action| kinds.contains(&action.kind))
            .count()
    }
}

/// Whether ranges have an id.
fn has(ranges: &[(u64, u64)], id: u64) -> bool {
    ranges
        .iter()
        .any(|(start, end)| (*start..=*end).contains(&id))
}
