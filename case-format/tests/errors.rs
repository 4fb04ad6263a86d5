//! Lines that can't be read: each reason, with the number of its line.

use case_format::{Action, Domain, Item, Kind, Reader, Reason};

const HEAD: &str = "case X\nmode On\nblock-status 403\n";

/// Reads a good case and then this text, whose lines are counted from 1.
#[track_caller]
fn fails(text: &str, error: &str) {
    fails_within(case_format::Anything, text, error);
}

#[track_caller]
fn fails_within(domain: impl Domain + 'static, text: &str, error: &str) {
    let mut reader = Reader::within(text.as_bytes(), domain);
    let found = loop {
        match reader.item() {
            Ok(item) => assert!(item.is_some(), "read to the end: {text}"),
            Err(error) => break error,
        }
    };
    assert_eq!(found.to_string(), format!("error line {error}"), "{text}");
}

#[test]
fn outside_a_case() {
    fails("# x\n\ncall 1\n", "3: call begins no line outside a case");
    fails("end\n", "1: end begins no line outside a case");
    fails("Case a\n", "1: Case begins no line outside a case");
    fails(
        "\nrule 1 matched\n",
        "2: rule begins no line outside a case",
    );
    let name = "a name has letters, digits, '-' and '.' only";
    fails("case a_b\n", &format!("1: {name}"));
    fails("case a\r\n", &format!("1: {name}"));
    fails("case\n", "1: a word is missing at the end");
    let blank = "one blank stands between two words, and none at the end";
    fails("case  a\n", &format!("1: {blank}"));
    fails("case \n", &format!("1: {blank}"));
    fails("case a \n", "1: the line goes on where it should end");
    fails("case a b\n", "1: the line goes on where it should end");
    fails("  # x\n\tcase X\nmode On", "3: the text ends inside a case");
}

#[test]
fn words_that_are_no_text() {
    let mut reader = Reader::new(&b"case \xFF\n"[..]);
    let error = reader.item().unwrap_err();
    assert_eq!(error.to_string(), "error line 1: a word is no plain text");
}

#[test]
fn texts() {
    fails("ctl \"a\n", "1: a text ends with \"");
    fails("ctl \"a\" \"b\\\"\n", "1: a text ends with \"");
    fails("ctl \"a\"\n", "1: a text is missing at the end");
    fails("ctl a \"b\"\n", "1: a text begins with \"");
    fails("ctl \"a\"  \"b\"\n", "1: a text begins with \"");
    let backslash = "1: a backslash begins \\\", \\\\ or \\xHH";
    fails("ctl \"\\n\" \"b\"\n", backslash);
    fails("ctl \"a\" \"\\x4", backslash);
    let digits = "1: \\x stands before two hexadecimal digits";
    fails("ctl \"\\xg0\" \"b\"\n", digits);
    fails("ctl \"\\x0g\" \"b\"\n", digits);
    let follows = "1: a blank or the line's end follows a text";
    fails("ctl \"a\"\"b\"\n", follows);
    let goes_on = "1: the line goes on where it should end";
    fails("ctl \"a\" \"b\" \n", goes_on);
    fails("ctl \"a\" \"b\" # no comment\n", goes_on);
}

#[test]
fn numbers() {
    fails(&format!("{HEAD}call x\n"), "4: x is no number");
    fails(&format!("{HEAD}entry-range 1 +2\n"), "4: +2 is no number");
    fails(
        &format!("{HEAD}call 1\nrule -1 matched\n"),
        "5: -1 is no number",
    );
    let above = "18446744073709551616";
    let reason = format!("4: {above} is above 18446744073709551615");
    fails(&format!("{HEAD}call {above}\n"), &reason);
}

#[test]
fn before_the_first_call() {
    fails("case X\nmode on\n", "2: a mode is On, DetectionOnly or Off");
    fails("case X\nmode On\nmode On\n", "3: a case says this once");
    let first = "mode and block-status come before the first call";
    fails("case X\ncall 1\n", &format!("2: {first}"));
    fails("case X\nmode On\ncall 1\n", &format!("3: {first}"));
    fails("case X\nblock-status 1\ncall 1\n", &format!("3: {first}"));
    let after_head = |line: &str, error: &str| fails(&format!("{HEAD}{line}\n"), error);
    after_head("end", "4: a case has a mode, a block-status and a call");
    after_head("block-status 1", "4: a case says this once");
    after_head("entry-mode on", "4: a mode is On, DetectionOnly or Off");
    after_head("entry-body-access on", "4: body access is On or Off");
    after_head(
        "entry-body-processor json",
        "4: a body processor is URLENCODED, MULTIPART, JSON or XML",
    );
    after_head("entry-range 1", "4: a word is missing at the end");
    for flag in ["entry-allowed", "entry-stopped"] {
        after_head(&format!("{flag}\n{flag}"), "5: a case says this once");
    }
    after_head(
        "rule 1 matched",
        "4: rule begins no line before a case's first call",
    );
    after_head(
        "case Y",
        "4: case begins no line before a case's first call",
    );
}

#[test]
fn in_a_call() {
    let in_call = |line: &str, error: &str| fails(&format!("{HEAD}call 1\n{line}\n"), error);
    in_call("# no end", "5: the text ends inside a case");
    in_call("deny", "5: an action comes before the first rule");
    in_call("entry-allowed", "5: entry-allowed begins no line of a call");
    in_call("case Y", "5: case begins no line of a call");
    let outcome = "5: an outcome is missed, matched, matched-var or error";
    in_call("rule 1 maybe", outcome);
    in_call("rule 1 link link", outcome);
    in_call("rule 1", "5: a word is missing at the end");
    in_call("rule 1 link", "5: a word is missing at the end");
    let goes_on = "the line goes on where it should end";
    in_call("rule 1 missed x", &format!("5: {goes_on}"));
    in_call("rule 1 missed\ndeny 403", &format!("6: {goes_on}"));
    in_call("rule 1 missed\nfly", "6: fly begins no line of a call");
    in_call("rule 1 missed\nmsg x", "6: a text begins with \"");
    in_call("rule 1 missed\nskip", "6: a word is missing at the end");
    in_call("marker \"A\"", "5: a word is missing at the end");
}

/// Takes nothing that is large.
struct Small;

impl Small {
    fn below(number: u64, most: u64) -> Result<(), Reason> {
        let large = || format!("{number} is large");
        (number <= most).then_some(()).ok_or_else(large)
    }
}

impl Domain for Small {
    fn text(&self, text: &[u8]) -> Result<(), Reason> {
        Self::below(text.len() as u64, 5)
    }

    fn block_status(&self, status: u64) -> Result<(), Reason> {
        Self::below(status, 403)
    }

    fn phase(&self, phase: u64) -> Result<(), Reason> {
        Self::below(phase, 2)
    }

    fn action(&self, action: &Action) -> Result<(), Reason> {
        match action.kind() {
            Kind::Skip => Self::below(action.number(), 3),
            _ => Ok(()),
        }
    }

    fn position(&self, position: u64, rules: usize) -> Result<(), Reason> {
        Self::below(position, rules as u64)
    }
}

#[test]
fn what_a_program_does_not_take() {
    let small = |text: &str, error: &str| fails_within(Small, text, error);
    small("ctl \"123456\" \"\"\n", "1: 6 is large");
    small("ctl \"\" \"123456\"\n", "1: 6 is large");
    small("case X\nmode On\nblock-status 404\n", "3: 404 is large");
    small(&format!("{HEAD}call 3\n"), "4: 3 is large");
    let head = format!("{HEAD}call 1\nrule 9 matched\n");
    small(&format!("{head}skip 4\n"), "6: 4 is large");
    small(&format!("{head}msg \"123456\"\n"), "6: 6 is large");
    small(&format!("{head}ctl \"\" \"123456\"\n"), "6: 6 is large");
    small(&format!("{head}marker \"123456\" 0\n"), "6: 6 is large");
    // A position is looked at when the call is whole; the line is the marker's.
    small(
        &format!("{head}marker \"A\" 2\nother\nend\n"),
        "6: 2 is large",
    );
    let second = "marker \"A\" 1\ncall 2\nmarker \"B\" 1\nend\n";
    small(&format!("{head}{second}"), "8: 1 is large");
    let good = format!("{head}id 7\nmarker \"A\" 2\nrule - matched\nend\n");
    let mut reader = Reader::within(good.as_bytes(), Small);
    assert!(matches!(reader.item(), Ok(Some(Item::Case(_)))));
}

#[test]
fn what_stands_before_an_error_is_read() {
    let mut reader = Reader::new(&b"ctl \"a\" \"b\"\ncase ?\n"[..]);
    assert!(matches!(reader.item(), Ok(Some(Item::Directive(_)))));
    assert!(reader.item().is_err());
}

#[test]
fn blanks_comments_and_a_last_line_without_an_end() {
    let text = b"\n \t\n  # a comment\n\tctl \"a\" \"\\x6Fn\\xff\xFF\"";
    let mut reader = Reader::new(&text[..]);
    let Ok(Some(Item::Directive(directive))) = reader.item() else {
        panic!("the text has a directive");
    };
    assert_eq!(directive.value, b"on\xFF\xFF");
    assert_eq!(reader.item(), Ok(None));
}
