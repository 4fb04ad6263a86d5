//! Reads cases on standard input and prints their results on standard output.

use std::io::{stdin, stdout, BufWriter, Write};
use std::process::ExitCode;

use case_format::{Item, Reader};
use oracle::{directive, directive_answer, run_case, RustDomain};

fn main() -> ExitCode {
    let mut out = BufWriter::new(stdout().lock());
    let ended = answer_all(&mut out);
    // What was answered before an error stands before it.
    let ended = out.flush().map_err(|error| error.to_string()).and(ended);
    match ended {
        Ok(()) => ExitCode::SUCCESS,
        Err(error) => {
            eprintln!("{error}");
            ExitCode::FAILURE
        }
    }
}

fn answer_all(out: &mut impl Write) -> Result<(), String> {
    let mut reader = Reader::within(stdin().lock(), RustDomain);
    loop {
        let printed = match reader.item().map_err(|error| error.to_string())? {
            None => return Ok(()),
            Some(Item::Case(case)) => writeln!(out, "{}", run_case(&case)),
            Some(Item::Directive(ctl)) => {
                let read = directive(&ctl.name, &ctl.value);
                writeln!(out, "{}", directive_answer(&read))
            }
        };
        printed.map_err(|error| error.to_string())?;
    }
}
