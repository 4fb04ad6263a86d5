//! compare [--planted READING] [N [SEED]]
//! compare --readings
//! compare --record [N [SEED]]
//!
//! Makes random cases and runs N calls through the proved library, the published Rust and a plain model written from the
//! papers, and compares the results field by field. Prints differences as small cases, each cause once, what was reached, and as its last
//! line `N calls, D differences`; the exit status is 1 where D is not 0, or where a run of 50,000 calls or more missed a line.
//!
//! With --planted the model with a wrong reading stands in for the library, which must be found; --readings lists them.
//! --record chooses N small cases (2,000 or more) that reach every line but those of large calls, and writes them with the
//! Rust's results below the current folder; see record.rs.

mod cause;
mod differences;
mod make;
mod numbers;
mod reached;
mod record;
mod run;
mod shrink;
mod sides;

use std::env;
use std::path::Path;
use std::process::ExitCode;
use std::time::Instant;

use beside::model::READINGS;

use reached::FULL;
use run::{Options, Report};

const USAGE: &str =
    "usage: compare [--planted READING] [N [SEED]], compare --readings, or compare --record [N [SEED]]";

fn main() -> ExitCode {
    let words: Vec<String> = env::args().skip(1).collect();
    if words == ["--readings"] {
        READINGS.iter().for_each(|(name, ..)| println!("{name}"));
        return ExitCode::SUCCESS;
    }
    if let [switch, rest @ ..] = words.as_slice() {
        if let ("--record", Some([count, seed])) = (switch.as_str(), numbers_or(rest, [2_000, 1])) {
            return record(count, seed);
        }
    }
    let Some(options) = options(&words) else {
        eprintln!("{USAGE}");
        return ExitCode::from(2);
    };
    let begin = Instant::now();
    let report = run::run(options);
    let seconds = begin.elapsed().as_secs_f64();
    let missing = print(options, &report);
    println!("{seconds:.1} s, seed {}", options.seed);
    println!(
        "{} calls, {} differences",
        options.calls, report.differences
    );
    ExitCode::from(u8::from(missing || report.differences > 0))
}

fn options(words: &[String]) -> Option<Options> {
    let (planted, rest) = match words {
        [switch, name, rest @ ..] if switch == "--planted" => {
            let known = READINGS.iter().find(|(known, ..)| known == name)?;
            (Some(known.1), rest)
        }
        rest => (None, rest),
    };
    let [calls, seed] = numbers_or(rest, [1_000_000, 1])?;
    Some(Options {
        calls,
        seed,
        planted,
    })
}

/// Two numbers, and these where they are not given.
fn numbers_or(words: &[String], [first, second]: [u64; 2]) -> Option<[u64; 2]> {
    let numbers: Option<Vec<u64>> = words.iter().map(|word| word.parse().ok()).collect();
    match numbers?.as_slice() {
        [] => Some([first, second]),
        [first] => Some([*first, second]),
        [first, second] => Some([*first, *second]),
        _ => None,
    }
}

fn record(count: u64, seed: u64) -> ExitCode {
    match record::record(Path::new("."), count as usize, seed) {
        Ok(missing) => {
            missing
                .iter()
                .for_each(|line| println!("too few cases: {line}"));
            ExitCode::from(u8::from(!missing.is_empty()))
        }
        Err(error) => {
            eprintln!("{error}");
            ExitCode::FAILURE
        }
    }
}

/// Prints what came of a run, and says whether a line of the table is missing that should be there.
fn print(options: Options, report: &Report) -> bool {
    let cases = report.found.iter().map(|found| &found.case);
    differences::print(cases, options.planted);
    if let Some(reading) = options.planted {
        let planted = READINGS.iter().find(|(_, known, _)| *known == reading);
        planted
            .iter()
            .for_each(|(.., says)| println!("planted: {says}"));
        return false;
    }
    report.table.print();
    let missing = report.table.missing();
    let is_wrong = options.calls >= FULL && !missing.is_empty();
    if is_wrong {
        missing
            .iter()
            .for_each(|line| println!("not reached: {line}"));
    }
    is_wrong
}
