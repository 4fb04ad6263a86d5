//! Chooses small cases that reach every line of the table, and writes them with the Rust's results.

use std::fs;
use std::io;
use std::path::Path;

use beside::case::Case;
use beside::random::Random;
use case_format::{CallResult, CaseResult};

use crate::numbers;
use crate::reached::{Marks, Seen, Table};
use crate::sides::{directives, Sides};
use crate::{differences, make};

/// Each line of the table that a small case can reach is reached by so many cases.
const EACH: u64 = 20;

/// How many cases are looked at for them, and how many of these for the smallest alone.
const LOOKED_AT: u64 = 1_000_000;
const SMALLEST_FIRST: u64 = 50_000;

/// How large the calls of a case may be.
struct Size {
    rules: usize,
    text: usize,
}

const SMALLEST: Size = Size {
    rules: 6,
    text: 200,
};
const LARGEST: Size = Size {
    rules: 12,
    text: 4_096,
};

const MOST_ACTIONS: usize = 256;
const MOST_MARKERS: usize = 16;

/// A case that was taken: its name, itself and the Rust's results.
struct Taken {
    name: String,
    case: Case,
    found: Vec<CallResult>,
}

/// Writes `count` cases or more: cases/recorded.cases and cases/recorded.expected in the case format, and in numbers
/// crates/replay/stdin, all below a folder. Gives the lines of the table that too few cases reach.
pub fn record(folder: &Path, count: usize, seed: u64) -> io::Result<Vec<&'static str>> {
    let (taken, missing) = taken(count, seed);
    let cases = taken.iter().map(|it| differences::case(&it.case, &it.name));
    write(folder, "cases/recorded.cases", cases)?;
    let results = taken.iter().map(|it| {
        let (name, calls) = (it.name.clone(), it.found.clone());
        CaseResult { name, calls }.to_string()
    });
    write(folder, "cases/recorded.expected", results)?;
    let lines = taken.iter().map(|it| numbers::line(&it.case, &it.found));
    write(folder, "crates/replay/stdin", lines)?;
    println!("{} cases", taken.len());
    Ok(missing)
}

fn write(folder: &Path, name: &str, texts: impl Iterator<Item = String>) -> io::Result<()> {
    let path = folder.join(name);
    fs::create_dir_all(path.parent().expect("a file has a folder"))?;
    let whole: String = texts.map(|text| text + "\n").collect();
    fs::write(&path, &whole)?;
    println!("{name}: {} bytes", whole.len());
    Ok(())
}

/// First cases for lines that are still short of them, then small ones until there are enough.
fn taken(count: usize, seed: u64) -> (Vec<Taken>, Vec<&'static str>) {
    let (mut random, mut table, mut taken) = (Random::new(seed), Table::default(), Vec::new());
    for at in 0..LOOKED_AT {
        let short = table.short(EACH);
        if taken.len() >= count && short.is_empty() {
            break;
        }
        let mut case = match at % 100 {
            0 => make::at_limits(&mut random, at / 100),
            _ => make::case(&mut random),
        };
        let is_first = at < SMALLEST_FIRST;
        if !is_within(&case, if is_first { &SMALLEST } else { &LARGEST }) {
            continue;
        }
        let (found, marks) = run(&case);
        // The Rust refuses no call, so that a case ends before the first one that is refused.
        case.calls.truncate(found.len());
        if case.calls.is_empty() {
            continue;
        }
        let is_wanted = marks.iter().any(|line| short.contains(&line));
        let is_small = short.is_empty() && is_within(&case, &SMALLEST);
        if is_wanted || is_small {
            table.count(&marks);
            let name = format!("R{}", taken.len() + 1);
            taken.push(Taken { name, case, found });
        }
    }
    let short = table.short(EACH);
    (taken, Table::texts(&short))
}

fn is_within(case: &Case, size: &Size) -> bool {
    case.calls.iter().all(|call| {
        call.rules.len() <= size.rules
            && call.text.len() <= size.text
            && call.actions.len() <= MOST_ACTIONS
            && call.markers.len() <= MOST_MARKERS
    })
}

/// The Rust's results up to the first call that is refused, and what was reached.
fn run(case: &Case) -> (Vec<CallResult>, Marks) {
    let mut sides = Sides::new(case, None);
    let (mut found, mut all) = (Vec::new(), Marks::default());
    for call in &case.calls {
        let directives = directives(call);
        let ran = sides.call(call, &directives);
        assert!(ran.differing.is_empty(), "a difference: run compare first");
        if ran.is_refused() {
            break;
        }
        let seen = Seen::new(case, call, &directives, &ran);
        all.add(&seen.marks());
        found.push(ran.rust);
    }
    (found, all)
}
