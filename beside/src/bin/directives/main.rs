//! directives [--planted FAULT] [N [SEED]]
//! directives --faults
//!
//! Feeds N random and damaged directives to the proved reader, through the static library, and to the published Rust's
//! `CtlDirective::parse`, and compares the two in full: the directive, why it is unsupported, every range, where a target
//! is cut, and every entry of the lent lists. Expected results come from the Rust and from 01's rules for refusals 2, 6
//! and 7 alone. The model's directive reader is compared with the Rust too.
//! The last line is `N directives, D differences`; the exit status is 1 where D is not 0.
//!
//! With --planted a wrong reader stands in for ours, which must be found; --faults lists them.

mod compare;
mod measure;
mod planted;
mod question;
mod report;

use std::env;
use std::process::ExitCode;
use std::time::Instant;

use beside::{random, values};
use compare::Outcome;
use planted::FAULTS;
use question::Question;

const SHOWN: u64 = 3;

struct Options {
    count: u64,
    seed: u64,
    read: fn(&Question) -> Outcome,
}

fn main() -> ExitCode {
    let words: Vec<String> = env::args().skip(1).collect();
    if words == ["--faults"] {
        FAULTS.iter().for_each(|(name, _)| println!("{name}"));
        return ExitCode::SUCCESS;
    }
    let Some(options) = options(&words) else {
        eprintln!("usage: directives [--planted FAULT] [N [SEED]], or directives --faults");
        return ExitCode::from(2);
    };
    let differences = run(&options);
    println!("{} directives, {differences} differences", options.count);
    ExitCode::from(u8::from(differences > 0))
}

fn options(words: &[String]) -> Option<Options> {
    let mut read: fn(&Question) -> Outcome = compare::ours;
    let mut rest = words;
    if let [switch, name, more @ ..] = words {
        if switch == "--planted" {
            read = FAULTS.iter().find(|fault| fault.0 == name)?.1;
            rest = more;
        }
    }
    let numbers: Option<Vec<u64>> = rest.iter().map(|word| word.parse().ok()).collect();
    let (count, seed) = match numbers?.as_slice() {
        [] => (1_000_000, 1),
        [count] => (*count, 1),
        [count, seed] => (*count, *seed),
        _ => return None,
    };
    Some(Options { count, seed, read })
}

/// Runs, prints what was reached and how long it took, and gives the number of differences.
fn run(options: &Options) -> u64 {
    let begin = Instant::now();
    let mut random = random::Random::new(options.seed);
    let mut reached = report::Reached::default();
    let mut sample = measure::Sample::default();
    let mut differences = 0;
    for index in 0..options.count {
        let question = question::question(&mut random, index);
        let expected = compare::expected(&question);
        let answer = compare::expected_answer(&question, &expected);
        let found = (options.read)(&question);
        let ours_agrees = compare::agrees(&question, &expected, &found);
        if !ours_agrees || !compare::model_agrees(&question, &expected) {
            differences += 1;
            if differences <= SHOWN {
                report::print_difference(&question, &expected, answer, &found);
            }
        }
        reached.count(&question, &expected, answer);
        sample.offer(&question);
    }
    let elapsed = begin.elapsed();
    reached.print();
    sample.print();
    println!(
        "{:.1} s for the comparison, seed {}",
        elapsed.as_secs_f64(),
        options.seed
    );
    differences
}
