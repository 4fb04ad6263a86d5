//! The program walk: C1 to C16, results line by line, and lines that can't be read.

use std::io::Write;
use std::path::{Path, PathBuf};
use std::process::{Command, Output, Stdio};

fn cases(name: &str) -> PathBuf {
    Path::new(env!("CARGO_MANIFEST_DIR"))
        .join("../../cases")
        .join(name)
}

fn program() -> Command {
    Command::new(env!("CARGO_BIN_EXE_walk"))
}

/// Runs the program with this text on its standard input.
fn walk(words: &[&str], text: &str) -> Output {
    let piped = || Stdio::piped();
    let mut command = program();
    command.args(words).arg("-");
    command.stdin(piped()).stdout(piped()).stderr(piped());
    let mut child = command.spawn().expect("the program starts");
    let mut input = child.stdin.take().expect("it reads");
    let text = text.to_string();
    let feeder = std::thread::spawn(move || input.write_all(text.as_bytes()));
    let output = child.wait_with_output().expect("it ends");
    // A program that ends at a bad line does not read the rest.
    let _ = feeder.join().expect("the text is written");
    output
}

fn out(output: &Output) -> &str {
    std::str::from_utf8(&output.stdout).expect("plain text")
}

/// The results without the removed visits, which the Rust does not evaluate and expectations do not have.
fn without_removed(results: &str) -> String {
    let keep = |line: &str| match line.strip_prefix("visits") {
        Some(visits) => {
            let visits = visits
                .split(' ')
                .filter(|visit| !visit.ends_with(":removed"));
            format!("visits{}\n", visits.collect::<Vec<_>>().join(" "))
        }
        None => format!("{line}\n"),
    };
    results.lines().map(keep).collect()
}

#[test]
fn c1_to_c16() {
    let output = program()
        .arg("--results")
        .arg(cases("c1-c16.cases"))
        .output();
    let output = output.expect("the program starts");
    assert!(output.status.success());
    let expected = std::fs::read_to_string(cases("c1-c16.expected")).unwrap();
    assert_eq!(without_removed(out(&output)), expected);
}

#[test]
fn a_walk_shows_every_rule() {
    let output = program().arg(cases("c1-c16.cases")).output();
    let walk = String::from_utf8(output.unwrap().stdout).unwrap();
    for line in [
        "C8   phase 2, mode On; marker A at 1",
        "  1  rule 31      deny                                        passed   no usable marker: A at 1 is not greater than 1",
        "  2  rule 42                                                  removed  in range 42-42, the chain stays open",
        "  3  rule 43                                                  matched  closes unit 1 3, stops",
        "  visits    4 of 4 rules: 3 matched, 1 removed",
        "  visits    1 of 2 rules: 1 matched",
        "  visits    0 of 0 rules",
        "  request   stopped, status 403, ids 43 41",
        "ruleRemoveById=\"1,5-4\"  unsupported 2: ruleRemoveById takes rule ids and ranges, separated by commas, as in ruleRemoveById=942100-942999,43; one bad part, such as 5-4, spoils the whole list",
        "  ctl       first passed over at 0, rule 2: ruleRemoveById=\",\", reason 2, id list",
    ] {
        assert!(walk.lines().any(|found| found == line), "{line}");
    }
}

/// One call of one rule with these actions, in phase 1 with mode On.
fn one_rule(actions: &str) -> String {
    format!("case X\nmode On\nblock-status 403\ncall 1\nrule 5 matched-var\n{actions}end\n")
}

#[test]
fn every_field_of_an_intervention() {
    let actions = r#"
        redirect "http://x/\"\\\x09"
        msg "m"
        logdata "l"
        rev "r"
        ver "v"
        severity 1
        maturity 2
        accuracy 3
        id 6
        ctl "ruleRemoveTargetById" " 1 ; ARGS"
    "#;
    let output = walk(&["--results"], &one_rule(actions));
    let results = "case X\ncall 1\nanswer 0\nvisits 0:matched\nids 5\ndata 5@0\nmode -\nbody-access -\nbody-processor -\nranges\ntargets \"1\";\"ARGS\"\nallowed no\nintervention status=302 drop=no url=\"http://x/\\\"\\\\\\x09\" log=\"m\" ids=5,6 phase=1 id=6 msg=\"m\" logdata=\"l\" rev=\"r\" ver=\"v\" severity=1 maturity=2 accuracy=3\nunsupported -\nend\n";
    assert_eq!(out(&output), results);
}

/// The answer lines of a text's results.
fn answers(text: &str) -> Vec<String> {
    let output = walk(&["--results"], text);
    assert!(output.status.success() && output.stderr.is_empty());
    let lines = out(&output).lines();
    let answers = lines.filter_map(|line| line.strip_prefix("answer "));
    answers.map(str::to_string).collect()
}

#[test]
fn refusals_and_errors_are_answers() {
    let head = "case X\nmode On\nblock-status 403\n";
    let many = |line: &str, count: usize| line.repeat(count);
    let call = |rest: &str| format!("{head}call 1\n{rest}end\n");
    assert_eq!(answers(&format!("{head}call 6\nend\n")), ["1"]);
    assert_eq!(answers(&call(&many("rule 1 missed\n", 513))), ["2"]);
    let ranges = many("entry-range 1 2\n", 257);
    assert_eq!(answers(&format!("{head}{ranges}call 1\nend\n")), ["3"]);
    assert_eq!(answers(&one_rule("status 65536\n")), ["5"]);
    assert_eq!(answers(&call("marker \"A\" 1\n")), ["5"]);
    assert_eq!(answers(&one_rule("msg \"\\x80\"\n")), ["6"]);
    let ranges = many("ctl \"ruleRemoveById\" \"1\"\n", 257);
    assert_eq!(answers(&one_rule(&ranges)), ["8"]);
    let targets = many("ctl \"ruleRemoveTargetById\" \"1;A\"\n", 65);
    assert_eq!(answers(&one_rule(&targets)), ["9"]);
    assert_eq!(answers(&call("rule 1 matched\nrule 2 error\n")), ["10 1"]);
    assert_eq!(answers("ctl \"ruleEngine\" \"\\xFF\"\n"), ["6"]);
}

#[test]
fn more_ranges_than_a_transaction_has_places() {
    let ranges = "entry-range 1 2\n".repeat(257);
    let text = format!("case X\nmode On\nblock-status 403\n{ranges}call 1\nend\n");
    let output = walk(&["--results"], &text);
    let held = out(&output).lines().find(|line| line.starts_with("ranges"));
    assert_eq!(held, Some(format!("ranges{}", " 1-2".repeat(257)).as_str()));
}

/// A call of phase 2 on a transaction that holds these ranges, with rules that match and have one list of removed ids each.
fn removing(held: &[(u64, u64)], rules: &[(u64, &str)]) -> String {
    let held = held
        .iter()
        .map(|(start, end)| format!("entry-range {start} {end}\n"));
    let rules = rules
        .iter()
        .map(|(id, ids)| format!("rule {id} matched\nctl \"ruleRemoveById\" \"{ids}\"\n"));
    let (held, rules): (String, String) = (held.collect(), rules.collect());
    format!("case X\nmode On\nblock-status 403\n{held}call 2\n{rules}end\n")
}

/// The answer and the ranges of a text's only call.
fn answer_and_ranges(text: &str) -> (String, String) {
    let output = walk(&["--results"], text);
    let line = |word: &str| {
        let found = out(&output).lines().find(|line| line.starts_with(word));
        found.expect("every line is there").to_string()
    };
    (line("answer"), line("ranges"))
}

#[track_caller]
fn gives(text: &str, answer: &str, ranges: &str) {
    let found = answer_and_ranges(text);
    assert_eq!(
        found,
        (format!("answer {answer}"), format!("ranges{ranges}"))
    );
}

const MAX: u64 = u64::MAX;

/// Held ranges that are not in the merged form are answered 3 and stay as they are.
#[test]
fn held_ranges_in_another_form() {
    let rule = [(10, "7")];
    gives(&removing(&[(5, 4)], &rule), "3", " 5-4");
    gives(&removing(&[(1, 2), (3, 4)], &rule), "3", " 1-2 3-4");
    gives(&removing(&[(4, 5), (1, 2)], &rule), "3", " 4-5 1-2");
    gives(&removing(&[(7, 7), (7, 7)], &[]), "3", " 7-7 7-7");
    gives(&removing(&[(1, 2), (4, 5)], &rule), "0", " 1-2 4-5 7-7");
    let largest = format!(" 7-7 {MAX}-{MAX}");
    gives(&removing(&[(MAX, MAX)], &rule), "0", &largest);
}

/// 8 counts the ranges as they are written, those of every rule.
#[test]
fn ranges_count_before_they_merge() {
    let ones = |count: usize| vec!["1"; count].join(",");
    let whole = format!(" 0-{MAX}");
    gives(&removing(&[(0, MAX)], &[(10, &ones(256))]), "8", &whole);
    let half = ones(128);
    let twice = removing(&[(0, MAX)], &[(10, &half), (11, &half)]);
    gives(&twice, "8", &whole);
    gives(&removing(&[], &[(10, &ones(256))]), "0", " 1-1");
    let full: Vec<(u64, u64)> = (0..256).map(|at| (2 * at + 1, 2 * at + 1)).collect();
    let held: String = full.iter().map(|(id, _)| format!(" {id}-{id}")).collect();
    gives(&removing(&full, &[(1_000, "1")]), "8", &held);
    gives(&removing(&full[1..], &[(1_000, "1")]), "0", &held);
    gives(&removing(&full, &[(1_000, "5-4")]), "0", &held);
}

/// The lines of a walk that begin so.
fn shown(text: &str, word: &str) -> Vec<String> {
    let output = walk(&[], text);
    let lines = out(&output).lines().map(str::trim_start);
    let lines = lines.filter(|line| line.starts_with(word));
    lines.map(str::to_string).collect()
}

#[test]
fn why_held_ranges_are_refused() {
    for (held, why) in [
        (
            vec![(1, 2), (3, 4)],
            "ranges 1-2 and 3-4 touch: merged they are 1-4",
        ),
        (
            vec![(1, 5), (2, 3)],
            "ranges 1-5 and 2-3 overlap: merged they are 1-5",
        ),
        (
            vec![(4, 5), (1, 2)],
            "range 1-2 stands after 4-5 and starts below it",
        ),
        (vec![(1, 2), (5, 4)], "range 5-4 starts above its end"),
    ] {
        let line = format!("answer    refused with 3, nothing is changed: the ranges held are not sorted and merged; {why}");
        assert_eq!(shown(&removing(&held, &[]), "answer"), [line]);
    }
    let many: Vec<(u64, u64)> = vec![(1, 2); 257];
    let line = shown(&removing(&many, &[]), "answer").remove(0);
    assert!(line.contains("counts more than 256 ranges"), "{line}");
}

/// A removed rule names the range that had its id at its visit, merged from those added before it.
#[test]
fn the_range_of_a_removed_rule() {
    let rules = [
        (5, "8-9"),
        (8, ""),
        (6, ""),
        (4, "10,20"),
        (10, ""),
        (20, ""),
        (30, "11-19"),
    ];
    let text = removing(&[(6, 7)], &rules);
    let output = walk(&[], &text);
    let removed = out(&output).lines().filter_map(|line| {
        let at = line.find("removed  in range ")?;
        Some(line[at..].to_string())
    });
    let expected = ["6-9", "6-9", "6-10", "20-20"];
    let expected = expected.map(|range| format!("removed  in range {range}"));
    assert_eq!(removed.collect::<Vec<_>>(), expected);
    assert_eq!(shown(&text, "controls"), ["controls  range 6-20"]);
}

#[test]
fn calls_of_one_case_go_on_with_one_transaction() {
    let text = "case X\nmode On\nblock-status 403\nentry-body-access Off\nentry-body-processor XML\n\
        call 1\nrule 1 matched\nctl \"ruleRemoveById\" \"2\"\ncall 2\nrule 2 matched\nrule 3 matched\ndrop\n\
        call 3\nrule 4 matched\nend\n";
    let output = walk(&["--results"], text);
    let results = out(&output);
    assert!(results.contains("call 2\nanswer 0\nvisits 0:removed 1:matched\nids 3\ndata\n"));
    assert!(results.contains("body-access Off\nbody-processor XML\nranges 2-2\n"));
    assert!(results.contains("intervention status=444 drop=yes url=- log=- ids=3 phase=2 id=-"));
    assert!(results.ends_with("allowed no\nintervention held\nunsupported -\nend\n"));
    let output = walk(&[], text);
    let shown = out(&output);
    assert!(shown.contains("request   stopped, status 444, ids 3, connection dropped\n"));
    assert!(shown.ends_with("request   stopped before this call\n"));
}

/// A call of phase 2 in mode On with these rules.
fn rules(rules: &str) -> String {
    format!("case X\nmode On\nblock-status 403\ncall 2\n{rules}end\n")
}

/// The lines of a walk, or of results, that speak of an unsupported directive.
fn told(words: &[&str], text: &str) -> Vec<String> {
    let output = walk(words, text);
    assert!(output.status.success() && output.stderr.is_empty());
    let lines = out(&output).lines();
    let lines = lines.filter(|line| line.contains("unsupported") || line.starts_with("  ctl "));
    lines.map(str::to_string).collect()
}

const NOT_KNOWN: &str = "this directive is not known here; known are ruleEngine, ruleRemoveById, ruleRemoveTargetById, requestBodyAccess and requestBodyProcessor, as in ruleEngine=Off";
const AUDIT: &str = "auditEngine and auditLogParts steer an audit log, and none is written here: auditEngine=On has no effect, nor has any other value";

/// Every unsupported directive of a matched rule has a line below its rule; the first of the closed units stands at the end.
#[test]
fn directives_that_are_passed_over() {
    let text = rules(
        "rule 1 link matched\nrule - matched\nctl \"foo\" \"1\"\nctl \"ruleEngine\" \"On\"\nctl \"auditEngine\" \"On\"\ndeny\n",
    );
    assert_eq!(told(&["--results"], &text), ["unsupported 1 7"]);
    let column = " ".repeat(18);
    let shown = [
        format!("{column}foo=1  unsupported 7: {NOT_KNOWN}"),
        format!("{column}auditEngine=On  unsupported 6: {AUDIT}"),
        "  ctl       first passed over at 1, no id: foo=1, reason 7, unrecognised".to_string(),
    ];
    assert_eq!(told(&[], &text), shown);
    let stops = rules(
        "rule 10 matched\nctl \"auditEngine\" \"On\"\ndeny\nrule 11 matched\nctl \"foo\" \"1\"\n",
    );
    assert_eq!(told(&["--results"], &stops), ["unsupported 0 6"]);
    let shown = [
        format!("{column}auditEngine=On  unsupported 6: {AUDIT}"),
        "  ctl       first passed over at 0, rule 10: auditEngine=On, reason 6, audit".to_string(),
    ];
    assert_eq!(told(&[], &stops), shown);
}

/// In a chain that does not close a directive is told of at its rule, and is not counted. Rules that are not matched have
/// nothing to tell.
#[test]
fn directives_that_do_not_count() {
    let link = "rule 1 link matched\nctl \"foo\" \"1\"\n";
    let open = format!(
        "{}foo=1  unsupported 7, in a chain that does not close: {NOT_KNOWN}",
        " ".repeat(18)
    );
    for last in ["rule 2 missed\n", "rule 2 error\n", ""] {
        let text = rules(&format!("{link}{last}"));
        assert_eq!(told(&["--results"], &text), ["unsupported -"]);
        assert_eq!(told(&[], &text), [open.as_str()]);
    }
    let removed =
        rules(&format!("{link}rule 2 matched\n")).replace("call 2\n", "entry-range 2 2\ncall 2\n");
    assert_eq!(told(&["--results"], &removed), ["unsupported -"]);
    assert_eq!(told(&[], &removed), [open.as_str()]);
    for (entry, rule) in [
        ("", "rule 1 missed\n"),
        ("entry-range 1 1\n", "rule 1 matched\n"),
        ("entry-allowed\n", "rule 1 matched\n"),
        ("entry-stopped\n", "rule 1 matched\n"),
        ("entry-mode Off\n", "rule 1 matched\n"),
        ("", "rule 1 matched\nskip 4294967296\n"),
    ] {
        let text = rules(&format!("{rule}ctl \"foo\" \"1\"\n"));
        let text = text.replace("call 2\n", &format!("{entry}call 2\n"));
        assert_eq!(told(&["--results"], &text), ["unsupported -"]);
        assert_eq!(told(&[], &text), [""; 0]);
    }
}

/// docs/READING.md has these walks as the program prints them.
#[test]
fn the_walks_of_the_page() {
    let page = std::fs::read_to_string(cases("../docs/READING.md")).unwrap();
    for name in ["passed-over.cases", "merged-ranges.cases"] {
        let output = program().arg(cases(name)).output();
        let output = output.expect("the program starts");
        assert!(output.status.success());
        let walks = format!("```\n{}```\n", out(&output));
        assert!(page.contains(&walks), "{walks}");
    }
}

/// Each reason as results have it, and in the walk with its sentence.
#[test]
fn reasons_of_directives_alone() {
    let text = "ctl \"ruleEngine\" \"Of\"\nctl \"ruleRemoveById\" \"1,5-4\"\nctl \"ruleRemoveTargetById\" \"1\"\n\
        ctl \"requestBodyAccess\" \"yes\"\nctl \"requestBodyProcessor\" \"YAML\"\nctl \"auditEngine\" \"On\"\nctl \"\" \"\"\n";
    let numbers = (1..=7).map(|number| format!("unsupported {number}"));
    assert_eq!(told(&["--results"], text), numbers.collect::<Vec<_>>());
    let shown = told(&[], text);
    assert_eq!(shown[5], format!("auditEngine=On  unsupported 6: {AUDIT}"));
    assert_eq!(shown[6], format!("\"\"=\"\"  unsupported 7: {NOT_KNOWN}"));
    for (number, line) in (1..).zip(&shown) {
        assert!(
            line.contains(&format!("  unsupported {number}: ")),
            "{line}"
        );
    }
}

/// What the program says of a text that it can't read, after the results of what stands before.
#[track_caller]
fn fails(text: &str, error: &str) {
    for words in [&["--results"][..], &[]] {
        let output = walk(words, text);
        assert_eq!(output.status.code(), Some(1), "{text}");
        let said = String::from_utf8(output.stderr).unwrap();
        assert_eq!(said, format!("error line {error}\n"), "{text}");
    }
}

/// Every reason is tested in case-format; here that the program says it, and takes no less than the format.
#[test]
fn lines_that_cannot_be_read() {
    let head = "case X\nmode On\nblock-status 403\n";
    fails("# x\n\ncall 1\n", "3: call begins no line outside a case");
    fails("ctl \"a\"\n", "1: a text is missing at the end");
    fails("case X\nmode on\n", "2: a mode is On, DetectionOnly or Off");
    fails(&format!("{head}call 1\n"), "4: the text ends inside a case");
    let above = "18446744073709551616";
    let reason = format!("4: {above} is above 18446744073709551615");
    fails(&format!("{head}call {above}\n"), &reason);
}

#[test]
fn what_stands_before_an_error_is_walked() {
    let output = walk(&["--results"], "ctl \"ruleEngine\" \"off\"\ncase ?\n");
    assert_eq!(out(&output), "engine Off\n");
    let missing = program().arg("no/such/file").output().unwrap();
    assert_eq!(missing.status.code(), Some(1));
    assert!(missing.stderr.starts_with(b"error: no/such/file: "));
    let usage = program().arg("--result").output().unwrap();
    assert_eq!(usage.status.code(), Some(2));
}

/// 20,000 cases, each with its own id and outcome; a line of progress after the first 10,000.
#[test]
fn many_cases() {
    let case = |n: usize| {
        let outcome = ["missed", "matched", "matched-var", "error"][n % 4];
        format!(
            "case N{n}\nmode On\nblock-status 403\ncall {}\nrule {n} {outcome}\n  deny\nend\n",
            1 + n % 5
        )
    };
    let text: String = (0..20_000).map(case).collect();
    let output = walk(&["--results"], &text);
    assert!(output.status.success());
    assert_eq!(output.stderr, b"10000 cases walked\n");
    let blocks: Vec<&str> = out(&output).split_inclusive("end\n").collect();
    assert_eq!(blocks.len(), 20_000);
    for (n, block) in blocks.iter().enumerate() {
        let (ids, data) = (format!(" {n}"), format!(" {n}@0"));
        let (answer, verdict, ids, data) = match n % 4 {
            0 => ("0", "missed", "", ""),
            1 => ("0", "matched", ids.as_str(), ""),
            2 => ("0", "matched", ids.as_str(), data.as_str()),
            _ => ("10 0", "error", "", ""),
        };
        let call = 1 + n % 5;
        let begin = format!(
            "case N{n}\ncall {call}\nanswer {answer}\nvisits 0:{verdict}\nids{ids}\ndata{data}\n"
        );
        assert!(block.starts_with(&begin), "{block}");
    }
}
