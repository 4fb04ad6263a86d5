//! How the time of a call grows with the number of rules: no match, without ranges and with 256.

use std::path::Path;
use std::{fs, io};

use crate::cases;
use crate::plot::{self, Line};
use crate::times::{self, Times, BLOCKS};

const COUNTS: [u64; 4] = [64, 128, 256, 512];

/// The times for each number of rules.
type Grown = Vec<(u64, Times)>;

/// Times, prints the tables, and writes the plot.
pub fn print(file: &Path) -> io::Result<()> {
    println!(
        "How the time of a call grows, no match, nanoseconds in the fastest of {BLOCKS} blocks:"
    );
    let without = grown(&[]);
    table("no ranges", &without);
    let with = grown(&cases::both_sides());
    table(cases::BOTH_SIDES, &with);
    fs::write(file, plot::drawn(&lines(&without, &with)))?;
    println!("  drawn in {}", file.canonicalize()?.display());
    Ok(())
}

fn grown(ranges: &[(u64, u64)]) -> Grown {
    let times = |count| times::of(&cases::missed(count, ranges.to_vec()));
    COUNTS.map(|count| (count, times(count))).to_vec()
}

fn table(name: &str, grown: &Grown) {
    println!("  {name}");
    println!(
        "  {:>5} {:>10} {:>10} {:>10} {:>10} {:>7} {:>12}",
        "rules", "ours", "the Rust", "bare", "scan", "ratio", "ours a rule"
    );
    for (count, times) in grown {
        println!(
            "  {count:>5} {:>10.0} {:>10.0} {:>10.0} {:>10.0} {:>7.1} {:>12.1}",
            times.ours,
            times.rust,
            times.bare,
            times.scan,
            times.ratio(),
            times.ours / *count as f64
        );
    }
}

fn lines(without: &Grown, with: &Grown) -> Vec<Line> {
    let line = |name, color, grown: &Grown, of: fn(&Times) -> f64| Line {
        name,
        color,
        points: grown.iter().map(|(n, t)| (*n as f64, of(t))).collect(),
    };
    vec![
        line("the Rust, 256 ranges", "#b2182b", with, |t| t.rust),
        line("the Rust, no ranges", "#ef8a62", without, |t| t.rust),
        line("ours, 256 ranges", "#2166ac", with, |t| t.ours),
        line("ours, no ranges", "#67a9cf", without, |t| t.ours),
        line("scan alone, 256 ranges", "#777777", with, |t| t.scan),
    ]
}
