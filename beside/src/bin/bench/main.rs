//! bench [--check] [FILE]
//!
//! How long the proved phase call takes, as a gateway makes it, beside the published Rust's `run_phase` and a plain scan of
//! the removed ranges, on the same rules; how this grows with the number of rules, also as a plot in FILE; and how long the
//! largest legal calls take. All sides are compared before they are timed. The proved calls are then made once more in
//! a thread that has a stack of 256 KiB.
//!
//! With --check the exit status is 1 where a ratio is below its bound or a largest call takes a second or more.

mod cases;
mod check;
mod core_rules;
mod gateway;
mod growth;
mod largest;
mod plot;
mod times;

use std::path::PathBuf;
use std::process::ExitCode;
use std::{env, thread};

use cases::Measured;
use gateway::{Gateway, Results};
use times::{Times, BLOCKS};

const SMALL_STACK: usize = 256 * 1024;
const PASSES: usize = 5;

const PLOT: &str = concat!(env!("CARGO_MANIFEST_DIR"), "/../target/bench.svg");

fn main() -> ExitCode {
    let mut words: Vec<String> = env::args().skip(1).collect();
    let given = words.len();
    words.retain(|word| word != "--check");
    let check = words.len() < given;
    if words.len() > 1 || words.iter().any(|word| word.starts_with('-')) {
        eprintln!("usage: bench [--check] [FILE]");
        return ExitCode::from(2);
    }
    let file = PathBuf::from(words.pop().unwrap_or(PLOT.to_string()));
    let cases = cases::all();
    let mut missed = beside_the_rust(&cases);
    if let Err(error) = growth::print(&file) {
        eprintln!("{}: {error}", file.display());
        return ExitCode::from(2);
    }
    missed += largest::print();
    missed += largest::print_beside();
    missed += on_a_small_stack(&cases);
    println!("{missed} of the bounds missed");
    ExitCode::from(u8::from(check && missed > 0))
}

/// Times all cases, prints, and gives the number of ratios below their bound. The cases are gone through several times, because
/// a computer that others use too is slow for seconds on end.
fn beside_the_rust(cases: &[Measured]) -> usize {
    println!("Times are of one call, in the fastest of {PASSES} passes of {BLOCKS} blocks; the sides take turns. The transaction of each");
    println!("call, ours and the Rust's, is made before the clock is read. The Rust's time has the evaluation of the rules in it, which");
    println!("the proved call is given. `bare`: the Rust with no variable at its missed rules, which is the least that evaluation");
    println!("costs; the ratios are to rules as the oracle has them. `scan`: whether each id lies in a held range, nothing else.");
    let pass = || cases.iter().map(|measured| times::of(&measured.case));
    let mut fastest: Vec<Times> = pass().collect();
    for _ in 1..PASSES {
        for (best, times) in fastest.iter_mut().zip(pass()) {
            *best = best.faster(&times);
        }
    }
    let met = cases
        .iter()
        .zip(&fastest)
        .map(|(measured, times)| print_one(measured, times));
    met.filter(|&met| !met).count()
}

fn print_one(measured: &Measured, times: &Times) -> bool {
    let (ratio, bound) = (times.ratio(), measured.bound);
    println!("{}", measured.what);
    println!(
        "  {:.0} ns ours, {:.0} ns the Rust, {:.0} ns the Rust bare, {:.0} ns scan",
        times.ours, times.rust, times.bare, times.scan
    );
    println!("  bare {:.1}", times.bare / times.ours);
    println!("ratio {} {ratio:.1}", measured.name);
    if ratio < bound {
        println!("  MISSED: {ratio:.2}, the bound is {bound}");
    }
    ratio >= bound
}

/// Makes the proved calls alone, in a thread with a small stack, where they must give the same.
fn on_a_small_stack(cases: &[Measured]) -> usize {
    println!(
        "In a thread with a stack of {} KiB, ours alone:",
        SMALL_STACK / 1024
    );
    let results = |measured: &Measured| Gateway::new(&measured.case).results();
    let expected: Vec<Results> = cases.iter().map(results).collect();
    let run = || {
        for (measured, expected) in cases.iter().zip(&expected) {
            let mut gateway = Gateway::new(&measured.case);
            assert_eq!(gateway.results(), *expected);
            let [ours] = times::in_turns([&mut |calls| gateway.time(calls)]);
            println!("  {ours:.0} ns  {}", measured.what);
        }
        largest::print()
    };
    thread::scope(|scope| {
        let small = thread::Builder::new().stack_size(SMALL_STACK);
        let small = small.spawn_scoped(scope, run);
        let small = small.expect("a thread can be made");
        small.join().expect("the thread ends")
    })
}
