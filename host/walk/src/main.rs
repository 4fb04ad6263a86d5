//! walk [--results] FILE
//!
//! Walks the cases in FILE through the proved phase call and prints each walk for people to read, or with --results in
//! the case format. `-` is the standard input. A line that can't be read ends it with exit status 1.

mod lent;
mod results;
mod run;
mod show;
mod story;

use std::env;
use std::fs::File;
use std::io::{stdin, stdout, BufRead, BufReader, BufWriter, ErrorKind, Write};
use std::process::ExitCode;

use case_format::{Case, CaseResult, Directive, Item, Reader};
use tivembo::read_directive;

/// After so many cases, and before the next one, a line of progress is printed.
const PROGRESS: u64 = 10_000;

/// What ends the program before the end of its input.
enum Ended {
    Error(String),
    /// Nobody reads any more.
    Unread,
}

impl From<std::io::Error> for Ended {
    fn from(error: std::io::Error) -> Self {
        match error.kind() {
            ErrorKind::BrokenPipe => Ended::Unread,
            _ => Ended::Error(format!("error: {error}")),
        }
    }
}

fn main() -> ExitCode {
    let words: Vec<String> = env::args().skip(1).collect();
    let words: Vec<&str> = words.iter().map(String::as_str).collect();
    let (results, file) = match words[..] {
        ["--results", file] => (true, file),
        [file] if file == "-" || !file.starts_with('-') => (false, file),
        _ => {
            eprintln!("usage: walk [--results] FILE");
            return ExitCode::from(2);
        }
    };
    let mut out = BufWriter::new(stdout().lock());
    let ended = open(file).and_then(|input| walk_all(&mut out, input, results));
    // What was walked before an error stands before it.
    let ended = out.flush().map_err(Ended::from).and(ended);
    match ended {
        Ok(()) => ExitCode::SUCCESS,
        Err(Ended::Unread) => ExitCode::FAILURE,
        Err(Ended::Error(error)) => {
            eprintln!("{error}");
            ExitCode::FAILURE
        }
    }
}

fn open(file: &str) -> Result<Box<dyn BufRead>, Ended> {
    if file == "-" {
        return Ok(Box::new(stdin().lock()));
    }
    match File::open(file) {
        Ok(file) => Ok(Box::new(BufReader::new(file))),
        Err(error) => Err(Ended::Error(format!("error: {file}: {error}"))),
    }
}

fn walk_all(out: &mut impl Write, input: Box<dyn BufRead>, results: bool) -> Result<(), Ended> {
    let mut reader = Reader::new(input);
    let mut cases = 0;
    let mut was_case = None;
    loop {
        let item = reader.item();
        let Some(item) = item.map_err(|error| Ended::Error(error.to_string()))? else {
            return Ok(());
        };
        let is_case = matches!(item, Item::Case(_));
        // A gap between two walks, none between two directives.
        if !results && was_case.is_some_and(|was_case| was_case || is_case) {
            writeln!(out)?;
        }
        was_case = Some(is_case);
        match item {
            Item::Directive(directive) => print_directive(out, &directive, results)?,
            Item::Case(case) => {
                tell_progress(cases);
                cases += 1;
                print_case(out, &case, results)?;
            }
        }
    }
}

fn tell_progress(cases: u64) {
    if cases > 0 && cases.is_multiple_of(PROGRESS) {
        eprintln!("{cases} cases walked");
    }
}

fn print_directive(
    out: &mut impl Write,
    directive: &Directive,
    results: bool,
) -> Result<(), Ended> {
    let read = read_directive(&directive.name, &directive.value);
    if results {
        writeln!(out, "{}", results::directive(&read))?;
    } else {
        show::print_directive(out, directive, &read)?;
    }
    Ok(())
}

fn print_case(out: &mut impl Write, case: &Case, results: bool) -> Result<(), Ended> {
    if results {
        let (name, mut calls) = (case.name.clone(), Vec::new());
        run::run_case(case, |walked| {
            calls.push(results::result(walked));
            Ok::<(), Ended>(())
        })?;
        writeln!(out, "{}", CaseResult { name, calls })?;
        return Ok(());
    }
    let mut is_later = false;
    run::run_case(case, |walked| {
        if std::mem::replace(&mut is_later, true) {
            writeln!(out)?;
        }
        show::print_call(out, walked)
    })?;
    Ok(())
}
