//! The largest legal calls: 512 rules that all point at 4,096 ctl actions over 65,536 bytes of text.

use beside::case::{kind, outcome, Call, Case};
use oracle::{Missed, Timed};
use tivembo::{Action, Part, Rule};

use crate::check::check;
use crate::gateway::Gateway;

const RULES: usize = 512;
const ACTIONS: usize = 4_096;
const BYTES: usize = 65_536;
const ROUNDS: usize = 5;
const BOUND: f64 = 10.0;

/// A text, and where the directives' names and values stand in it.
struct Directives {
    name: String,
    text: Vec<u8>,
    parts: Vec<[Part; 2]>,
}

/// The Rust on the calls whose actions have 16 bytes each, and the ratios. It is given every rule's actions of its own, two million
/// in all, read before the clock is; where the values overlap these would fill 130 gigabytes.
pub fn print_beside() -> usize {
    println!("The largest legal calls with 16 bytes an action, beside the Rust, which has read the directives when it loads the rules:");
    let missed = print_ratio("largest-missed", outcome::MISSED);
    missed + print_ratio("largest-matched", outcome::MATCHED_VARIABLE)
}

fn print_ratio(name: &str, outcome: u8) -> usize {
    let case = case(&settings(), outcome);
    check(&case);
    let mut gateway = Gateway::new(&case);
    let timed = Timed::new(&case.written("largest"), Missed::WithVariable);
    let (mut ours, mut rust) = (f64::MAX, f64::MAX);
    for _ in 0..ROUNDS {
        ours = ours.min(gateway.time(1).as_nanos() as f64);
        rust = rust.min(timed.time(1).as_nanos() as f64);
    }
    println!("  {ours:.0} ns ours, {rust:.0} ns the Rust");
    let ratio = rust / ours;
    println!("ratio {name} {ratio:.1}");
    if ratio < BOUND {
        println!("  MISSED: {ratio:.2}, the bound is {BOUND}");
    }
    usize::from(ratio < BOUND)
}

/// Times all, prints, and gives the number of calls that take a second or more.
pub fn print() -> usize {
    println!("Largest legal calls: {RULES} rules that all point at {ACTIONS} ctl actions over {BYTES} bytes of text;");
    println!("all are answered 0. Seconds of one call, the fastest of {ROUNDS}.");
    let (settings, long) = (settings(), long_values());
    let mut slow = print_one(&settings, "all missed", outcome::MISSED);
    slow += print_one(
        &settings,
        "all matched, outcome 2",
        outcome::MATCHED_VARIABLE,
    );
    let missed = |directives| print_one(directives, "all missed", outcome::MISSED);
    slow + long.iter().map(missed).sum::<usize>()
}

fn print_one(directives: &Directives, what: &str, outcome: u8) -> usize {
    let case = case(directives, outcome);
    let mut gateway = Gateway::new(&case);
    let rounds = (0..ROUNDS).map(|_| gateway.time(1).as_secs_f64());
    let best = rounds.fold(f64::MAX, f64::min);
    assert_eq!(gateway.results().visits.len(), RULES);
    println!("  {best:.4} s  {}; {what}", directives.name);
    if best >= 1.0 {
        println!("  MISSED: the bound is a second");
    }
    usize::from(best >= 1.0)
}

fn case(directives: &Directives, outcome: u8) -> Case {
    let Directives { text, parts, .. } = directives;
    assert!(text.len() == BYTES && parts.len() == ACTIONS);
    let rule = |id: usize| Rule {
        present: 1,
        id: id as u64,
        count: ACTIONS as u64,
        ..Rule::default()
    };
    let action = |&[text, value]: &[Part; 2]| Action {
        kind: kind::CTL,
        number: 0,
        text,
        value,
    };
    let call = Call {
        phase: 2,
        rules: (1..=RULES).map(rule).collect(),
        outcomes: vec![outcome; RULES],
        actions: parts.iter().map(action).collect(),
        markers: Vec::new(),
        text: text.clone(),
    };
    Case {
        calls: vec![call],
        ..Case::default()
    }
}

fn part(start: usize, len: usize) -> Part {
    Part {
        start: start as u64,
        len: len as u64,
    }
}

/// Each action has 16 bytes of its own.
fn settings() -> Directives {
    let parts = |k: usize| [part(16 * k, 10), part(16 * k + 11, 5)];
    Directives {
        name: "each has 16 bytes, ruleEngine=On".to_string(),
        text: b"ruleEngine=On   ".repeat(ACTIONS),
        parts: (0..ACTIONS).map(parts).collect(),
    }
}

/// All actions have nearly the whole text as their value, which is found unsupported at its end only. The directive's name
/// is the start of the text. The values begin at 16 places in turn, so that no two in a row are the same.
fn long_values() -> Vec<Directives> {
    let removal = |what, repeated| long(what, "ruleRemoveById", repeated, "x");
    vec![
        removal("empty parts", ","),
        removal("one blank part", " "),
        removal("ids of one digit", "1,"),
        removal("ids of one digit after a blank", " 1,"),
        removal("ids of one digit after a plus", "+1,"),
        removal("ids of two digits", "12,"),
        removal("ranges of two ids of one digit", "1-1,"),
        removal("ranges of one digit with a blank", "1- 1,"),
        removal("ids of six digits", "123456,"),
        removal("ids of 19 digits", "1234567890123456789,"),
        removal("one number", "0"),
        long("no separator", "ruleRemoveTargetById", "1", "1"),
    ]
}

fn long(what: &str, directive: &str, repeated: &str, end: &str) -> Directives {
    let room = BYTES - directive.len() - end.len();
    let filling = repeated.bytes().cycle().take(room);
    let text = directive.bytes().chain(filling).chain(end.bytes());
    let parts = |k: usize| {
        let start = directive.len() + k % 16 * repeated.len();
        [part(0, directive.len()), part(start, BYTES - start)]
    };
    Directives {
        name: format!("values of all the text, {directive}: {what}"),
        text: text.collect(),
        parts: (0..ACTIONS).map(parts).collect(),
    }
}
