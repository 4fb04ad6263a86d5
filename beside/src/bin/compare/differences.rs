//! Differences as cases that can be read: made small, each cause once, with what the sides gave as comments.

use std::cmp::Reverse;

use beside::case::Case;
use beside::found::differing;
use beside::model::Reading;
use case_format::{CallResult, Place};

use crate::cause::Cause;
use crate::shrink::shrunk;
use crate::sides::{directives, Ran, Sides};

/// How many causes are shown.
const SHOWN: usize = 5;

const UNWRITTEN: &str =
    "# It differs as lent, with actions or texts that rules share. As written and read it does not differ.";
const REFUSED: &str =
    "# The papers refuse a call of it. The Rust refuses none, so that `oracle/run` answers otherwise.";
const GAVE: &str =
    "# What the calls gave. A line is marked with its side where not all sides have it:";

/// The differences of one cause.
struct Difference {
    cause: Cause,
    /// The first of their shrunk cases, and its calls up to the one that differs.
    case: Case,
    ran: Vec<Ran>,
    /// How many of the cases came to this cause.
    count: usize,
}

/// Prints the causes of these cases' differences, those of most cases first.
pub fn print<'a>(cases: impl Iterator<Item = &'a Case>, planted: Option<Reading>) {
    let mut found: Vec<Difference> = Vec::new();
    for case in cases {
        let new = Difference::of(case, planted);
        match found.iter_mut().find(|known| known.cause == new.cause) {
            Some(known) => known.count += 1,
            None => found.push(new),
        }
    }
    found.sort_by_key(|difference| Reverse(difference.count));
    let all: usize = found.iter().map(|difference| difference.count).sum();
    for (number, difference) in (1..).zip(found.iter().take(SHOWN)) {
        println!("{}", difference.text(number, all, planted.is_some()));
    }
    let rest = found.get(SHOWN..).unwrap_or_default();
    if !rest.is_empty() {
        let cases: usize = rest.iter().map(|difference| difference.count).sum();
        println!(
            "# not shown: {cases} of the {all} differences looked at, of {} more causes",
            rest.len()
        );
    }
}

/// The calls of a case up to the one that differs, none where none does.
fn ran(case: &Case, planted: Option<Reading>) -> Option<Vec<Ran>> {
    let mut sides = Sides::new(case, planted);
    let mut made = Vec::new();
    for call in &case.calls {
        let ran = sides.call(call, &directives(call));
        let differs = !ran.differing.is_empty();
        made.push(ran);
        if differs {
            return Some(made);
        }
    }
    None
}

/// A case as text. The format has no word for actions that rules share: comments then say where each rule's stand.
pub fn case(case: &Case, name: &str) -> String {
    case.written(name).with_comments(|place| match place {
        Place::Call(call) => {
            let is_plain = case.calls[call].is_plain();
            (!is_plain).then(|| "The rules' actions are parts of one list:".to_string())
        }
        Place::Rule(call, rule) => {
            let call = &case.calls[call];
            (!call.is_plain()).then(|| format!("{:?}", call.places_of(rule)))
        }
    })
}

impl Difference {
    fn of(case: &Case, planted: Option<Reading>) -> Self {
        let case = shrunk(case.clone(), |case| ran(case, planted).is_some());
        let ran = ran(&case, planted).expect("it was shrunk as long as it differs");
        let last = ran.last().expect("the last call differs");
        Self {
            cause: Cause::of(&case, &last.differing),
            case,
            ran,
            count: 1,
        }
    }

    /// The difference as a text of the case format. Of `all` cases that were looked at, so many had its cause.
    fn text(&self, number: usize, all: usize, is_planted: bool) -> String {
        let last = self.ran.last().expect("the last call differs");
        let mut lines = vec![
            format!("# difference {number}: {}", last.differing.join(", ")),
            format!(
                "# {} of the {all} differences looked at have this cause",
                self.count
            ),
        ];
        // The shrinking tried what is read of it, so that does not differ.
        if self.case.as_read() != self.case {
            lines.push(UNWRITTEN.to_string());
        }
        if self.ran.iter().any(Ran::is_refused) {
            lines.push(REFUSED.to_string());
        }
        lines.push(case(&self.case, &format!("difference-{number}")));
        lines.push(GAVE.to_string());
        lines.extend(self.ran.iter().flat_map(|ran| gave(ran, is_planted)));
        lines.join("\n")
    }
}

/// What a call gave, as comments.
fn gave(ran: &Ran, is_planted: bool) -> Vec<String> {
    let other = if is_planted { "planted" } else { "ours" };
    let first = if ran.is_refused() { "papers" } else { "rust" };
    let mut sides = vec![(first, &ran.rust), (other, &ran.other)];
    sides.extend(ran.model.iter().map(|model| ("model", model)));
    let printed: Vec<Vec<String>> = sides.iter().map(|(_, side)| side.lines()).collect();
    let mut lines = Vec::new();
    for (at, rust) in printed[0].iter().enumerate() {
        let word = rust.split(' ').next().unwrap_or_default();
        if agree(ran, word) {
            lines.push(marked("", rust));
            continue;
        }
        for ((name, _), side) in sides.iter().zip(&printed) {
            lines.push(marked(name, &side[at]));
        }
    }
    lines
}

fn marked(side: &str, line: &str) -> String {
    format!("# {side:<7} {line}")
}

/// Whether all sides agree in the line that begins with this word. Removed visits, which the Rust does not have, must be the
/// same on the other sides.
fn agree(ran: &Ran, word: &str) -> bool {
    let others: Vec<&CallResult> = [&ran.other].into_iter().chain(&ran.model).collect();
    let journals = others.windows(2).all(|two| two[0].visits == two[1].visits);
    let same = |other: &&CallResult| !differing(&ran.rust, other).contains(&word);
    others.iter().all(same) && (word != "visits" || journals)
}

#[cfg(test)]
mod tests {
    use super::*;
    use beside::case::{outcome, Call};
    use case_format::{Answer, Item, Reader, Verdict};
    use tivembo::{Action, Rule};

    /// What three sides gave, changed in some of them.
    fn ran(change: impl Fn(&mut CallResult, &mut CallResult, &mut CallResult)) -> Ran {
        let side = || CallResult::empty(2);
        let (mut rust, mut other, mut model) = (side(), side(), side());
        change(&mut rust, &mut other, &mut model);
        Ran {
            before: Default::default(),
            rust,
            plain: Vec::new(),
            plain_before: 0,
            other,
            model: Some(model),
            differing: vec!["ids".to_string()],
        }
    }

    /// The lines with a mark.
    fn marks(ran: &Ran) -> Vec<String> {
        let lines = gave(ran, false).into_iter();
        lines.filter(|line| !line.starts_with("#  ")).collect()
    }

    #[test]
    fn only_lines_that_differ_are_marked() {
        assert!(marks(&ran(|_, _, _| ())).is_empty());
        assert_eq!(gave(&ran(|_, _, _| ()), false)[0], "#         call 2");
        let other = ran(|_, other, _| other.ids.push(7));
        let lines = ["# rust    ids", "# ours    ids 7", "# model   ids"];
        assert_eq!(marks(&other), lines);
        let model = ran(|_, _, model| model.allowed = true);
        let lines = [
            "# rust    allowed no",
            "# ours    allowed no",
            "# model   allowed yes",
        ];
        assert_eq!(marks(&model), lines);
    }

    /// The Rust has no removed visits, but the other sides must have the same.
    #[test]
    fn removed_visits() {
        let removed = (0, Verdict::Removed);
        let both = ran(|_, other, model| {
            other.visits.push(removed);
            model.visits.push(removed);
        });
        assert!(marks(&both).is_empty());
        let one = ran(|_, other, _| other.visits.push(removed));
        let lines = [
            "# rust    visits",
            "# ours    visits 0:removed",
            "# model   visits",
        ];
        assert_eq!(marks(&one), lines);
    }

    /// The Rust has no answer for a call that the papers refuse.
    #[test]
    fn refused_calls_are_the_papers() {
        let one = ran(|rust, other, model| {
            for side in [rust, model] {
                side.answer = Answer::Refused(3);
            }
            other.answer = Answer::Done;
        });
        let lines = [
            "# papers  answer 3",
            "# ours    answer 0",
            "# model   answer 3",
        ];
        assert_eq!(marks(&one), lines);
    }

    /// Two rules of which both have the only action, or each has one.
    fn two_rules(actions: usize) -> Case {
        let rule = |first| Rule {
            first,
            count: 1,
            ..Rule::default()
        };
        let call = Call {
            phase: 2,
            rules: vec![rule(0), rule(actions as u64 - 1)],
            outcomes: vec![outcome::MATCHED; 2],
            actions: vec![Action::default(); actions],
            ..Call::default()
        };
        Case {
            calls: vec![call],
            ..Case::default()
        }
    }

    #[test]
    fn what_can_not_be_written_is_said() {
        let text = |case: Case| {
            let difference = Difference {
                cause: Cause::of(&case, &[]),
                case,
                ran: vec![ran(|_, other, _| other.ids.push(7))],
                count: 3,
            };
            difference.text(1, 60, false)
        };
        let (shared, own) = (text(two_rules(1)), text(two_rules(2)));
        assert!(shared.contains(UNWRITTEN) && !own.contains(UNWRITTEN));
        assert!(shared.contains("rule - matched\n  # 0..1\n  other\n"));
        assert!(own.starts_with("# difference 1: ids\n# 3 of the 60 differences looked at"));
        for text in [shared, own] {
            let mut reader = Reader::new(text.as_bytes());
            let item = Item::Case(two_rules(2).written("difference-1"));
            assert_eq!(reader.item(), Ok(Some(item)));
            assert_eq!(reader.item(), Ok(None));
        }
    }
}
