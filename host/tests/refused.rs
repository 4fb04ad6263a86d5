//! The program refused, on few calls: it finds no wrong one, and finds each planted one. The gate runs it on 1,000,000.

use std::process::{Command, Output};

fn refused(words: &[&str]) -> Output {
    let mut program = Command::new(env!("CARGO_BIN_EXE_refused"));
    program.args(words).output().expect("the program starts")
}

fn last_line(output: &Output) -> &str {
    let said = std::str::from_utf8(&output.stdout).expect("plain text");
    said.lines().last().expect("it says something")
}

#[test]
fn refused_calls_change_nothing() {
    let output = refused(&["5000", "1"]);
    let expected = "5000 refused and 5000 wild calls, 0 wrong";
    assert_eq!(last_line(&output), expected);
    assert!(output.status.success());
}

#[test]
fn wrong_calls_are_found() {
    let names = refused(&["--wrong"]);
    let names = std::str::from_utf8(&names.stdout).expect("plain text");
    assert!(names.lines().count() > 0);
    for name in names.lines() {
        let output = refused(&["--planted", name, "4000", "1"]);
        assert!(!last_line(&output).ends_with(" 0 wrong"), "{name}");
        assert_eq!(output.status.code(), Some(1), "{name}");
    }
}
