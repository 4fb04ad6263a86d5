//! refused [--planted WRONG] [N [SEED]]
//! refused --wrong
//!
//! Makes N calls that must be refused: each of the papers' nine reasons alone and every pair of them, planted in random calls to
//! which none applies. Of 3, held ranges that touch, overlap, are out of order, start above their end or follow the largest number
//! are reasons of their own. The answer must be the smaller number, with nothing told beside it, and every byte of the
//! transaction, the lists and what stands around the lists must be as lent. Which number is right comes from what was
//! planted, not from any code of ours. Where ranges are held in such a form, every question to the controls and every
//! addition to them must be refused too. Half of the random calls have an unsupported directive in a unit that closes where
//! they are not refused, and how many would tell of one is printed.
//! Then it makes N calls with records that hold anything: they may be answered as they like, but must return, keep
//! to their lists, leave everything as lent where they are refused, and leave merged ranges where they are not. For all of
//! these, what the crate's own check of a rule set says of the records must be what a call says that has no other fault, and
//! what it says of the ranges held must be what a question says.
//!
//! The last line is `N refused and N wild calls, W wrong`; the exit status is 1 where W is not 0. With --planted a wrong
//! call stands in for ours, which must be found; --wrong lists them.

mod given;
mod legal;
mod plant;
mod planted;
mod random;
mod wild;

use std::env;
use std::process::ExitCode;

use given::{Given, PhaseCall};
use plant::{Fault, FAULTS};
use planted::WRONG;
use random::Random;
use tivembo::{HostAnswer, UnsupportedAt};

/// How many wrong calls are shown.
const SHOWN: u64 = 3;

struct Options {
    count: u64,
    seed: u64,
    call: PhaseCall,
}

fn main() -> ExitCode {
    let words: Vec<String> = env::args().skip(1).collect();
    if words == ["--wrong"] {
        WRONG.iter().for_each(|(name, _)| println!("{name}"));
        return ExitCode::SUCCESS;
    }
    let Some(options) = options(&words) else {
        eprintln!("usage: refused [--planted WRONG] [N [SEED]], or refused --wrong");
        return ExitCode::from(2);
    };
    let mut random = Random::new(options.seed);
    let wrong = run_refused(&options, &mut random) + run_wild(&options, &mut random);
    let count = options.count;
    println!("{count} refused and {count} wild calls, {wrong} wrong");
    ExitCode::from(u8::from(wrong > 0))
}

fn options(words: &[String]) -> Option<Options> {
    let mut call: PhaseCall = tivembo::raw::run_phase;
    let mut rest = words;
    if let [switch, name, more @ ..] = words {
        if switch == "--planted" {
            call = WRONG.iter().find(|wrong| wrong.0 == name)?.1;
            rest = more;
        }
    }
    let numbers: Option<Vec<u64>> = rest.iter().map(|word| word.parse().ok()).collect();
    let (count, seed) = match numbers?.as_slice() {
        [] => (1_000_000, 1),
        [count] => (*count, 1),
        [count, seed] => (*count, *seed),
        _ => return None,
    };
    Some(Options { count, seed, call })
}

/// Each fault alone, then every pair of two numbers, the greater one first.
fn plans() -> Vec<Vec<&'static Fault>> {
    let alone = FAULTS.iter().map(|fault| vec![fault]);
    let pairs = FAULTS.iter().flat_map(|more| {
        let less = FAULTS.iter().filter(|less| less.number < more.number);
        less.map(move |less| vec![more, less])
    });
    alone.chain(pairs).collect()
}

/// Gives the number of wrong calls.
fn run_refused(options: &Options, random: &mut Random) -> u64 {
    let plans = plans();
    let mut base = legal::legal(random);
    let (mut wrong, mut answers) = (0, [0u64; 11]);
    let (mut telling, mut tells) = (0, false);
    for (index, plan) in (0..options.count).zip(plans.iter().cycle()) {
        // A round of all plans begins with a new call, which must not be refused.
        if index % plans.len() as u64 == 0 {
            base = legal::legal(random);
            let found = base.clone().call(options.call);
            let is_right = matches!(found.answer, 0 | 10);
            wrong += tell(is_right, wrong, "no fault", &base, &found);
            tells = found.report.unsupported != UnsupportedAt::default();
        }
        let mut given = base.clone();
        plan.iter()
            .for_each(|fault| (fault.plant)(&mut given, random));
        let expected = plan.last().map_or(0, |fault| fault.number);
        let before = given.clone();
        let found = given.call(options.call);
        let is_right = found == refused_with(expected)
            && given == before
            && is_consistent(&before)
            && (!plan.iter().any(|it| it.is_of_controls) || before.controls_are_refused());
        let names: Vec<&str> = plan.iter().map(|fault| fault.name).collect();
        let what = format!("{}, expected {expected}", names.join(" and "));
        wrong += tell(is_right, wrong, &what, &before, &found);
        answers[expected as usize] += 1;
        telling += u64::from(tells);
    }
    println!(
        "calls with each expected answer from 1 on: {:?}",
        &answers[1..10]
    );
    println!("calls that would tell of an unsupported directive: {telling}");
    wrong
}

/// Whether the crate's own checks, of the rule set and of the ranges held, say what calls say.
fn is_consistent(given: &Given) -> bool {
    given.is_checked() && given.has_fault_told()
}

/// A refusal and nothing beside it: no visit, no error, and nothing told.
fn refused_with(answer: u64) -> HostAnswer {
    HostAnswer {
        answer,
        ..HostAnswer::default()
    }
}

/// Gives the number of wrong calls.
fn run_wild(options: &Options, random: &mut Random) -> u64 {
    let (mut wrong, mut answers) = (0, [0u64; 11]);
    for _ in 0..options.count {
        let mut given = wild::wild(random);
        let before = given.clone();
        let found = given.call(options.call);
        let is_right = is_possible(&found, &given, &before) && is_consistent(&before);
        wrong += tell(is_right, wrong, "anything", &before, &found);
        answers[found.answer.min(10) as usize] += 1;
    }
    println!("wild calls with each answer from 0 on: {answers:?}");
    wrong
}

/// Whether a call on anything is answered as some call may be.
fn is_possible(found: &HostAnswer, given: &Given, before: &Given) -> bool {
    let rules = given.rules.len() as u64;
    let walked = found.visits <= rules && tells_possibly(found, rules);
    let keeps = given.keeps_guards_of(before) && !given.has_range_fault();
    match found.answer {
        0 => walked && found.error == 0 && keeps,
        1..=9 => *found == refused_with(found.answer) && given == before,
        10 => walked && found.error < rules && keeps,
        _ => false,
    }
}

/// Whether a call of so many rules may tell of such an unsupported directive: of none where there was no visit, else of a rule
/// with one of the reasons.
fn tells_possibly(found: &HostAnswer, rules: u64) -> bool {
    let told = found.report.unsupported;
    let is_none = told == UnsupportedAt::default();
    is_none || (found.visits > 0 && told.index < rules && (1..=7).contains(&told.reason))
}

/// Counts a wrong call, and shows the first of them.
fn tell(is_right: bool, wrong: u64, what: &str, before: &Given, found: &HostAnswer) -> u64 {
    if !is_right && wrong < SHOWN {
        println!("wrong: {what}; {found:?}");
        println!("  phase {}, mode {}", before.call.phase, before.call.mode);
        println!("  rules {:?}", &before.rules[..before.rules.len().min(8)]);
    }
    u64::from(!is_right)
}
