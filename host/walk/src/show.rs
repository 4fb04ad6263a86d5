//! Prints a walk for people to read: each rule with what happened at it, then what the call gave.

use std::io::{Result, Write};

use case_format::text::{data, on_off, quoted, range, target};
use case_format::{
    Action, Answer, BodyProcessor, CallResult, Directive, Entry, Intervention, Kind, Mode,
    Operands, Rule, Stop,
};
use tivembo::{PassedOver, Phase, Refusal, Report, UnsupportedReason, Verdict, MOST_RANGES};

use crate::results;
use crate::run::Walked;
use crate::story::{story, Seen};

/// How wide the columns of rules and of actions are at least, and at most; longer entries push the rest of their line.
const RULE: (usize, usize) = (11, 25);
const ACTIONS: (usize, usize) = (42, 72);

/// How many ranges are listed one by one.
const LISTED: usize = 8;

/// Prints a call's walk.
pub fn print_call(out: &mut impl Write, walked: &Walked) -> Result<()> {
    let found = results::result(walked);
    print_head(out, walked)?;
    match &walked.result {
        Ok(phase) => {
            print_rules(out, walked, phase)?;
            let visits = visits(phase.report(), walked.call.rules.len());
            print_field(out, "visits", &visits)?;
            let ids = found.ids.iter().map(u64::to_string).collect();
            print_field(out, "ids", &or_dash(ids, " "))?;
            let data = found.data.iter().map(data).collect();
            print_field(out, "data", &or_dash(data, " "))?;
        }
        Err(refusal) => {
            let (number, why) = (refusal.number(), why_refused(walked, *refusal));
            let line = format!("refused with {number}, nothing is changed: {why}");
            print_field(out, "answer", &line)?;
        }
    }
    print_field(out, "controls", &controls(walked, &found))?;
    print_field(out, "request", &request(walked, &found))?;
    let first = passed_over(walked);
    first.map_or(Ok(()), |first| print_field(out, "ctl", &first))
}

/// Why a call was refused. Of ranges that are not merged the first that is wrong is named.
fn why_refused(walked: &Walked, refusal: Refusal) -> String {
    let fault = walked.transaction.controls().range_fault();
    match fault.filter(|_| walked.ranges().len() <= MOST_RANGES) {
        Some(fault) if refusal == Refusal::Miscounted => {
            format!("the ranges held are not sorted and merged; {fault}")
        }
        _ => refusal.to_string(),
    }
}

/// Prints what the directive reader said.
pub fn print_directive(
    out: &mut impl Write,
    directive: &Directive,
    read: &std::result::Result<tivembo::Directive, Refusal>,
) -> Result<()> {
    let said = match read {
        Ok(tivembo::Directive::Unsupported(reason)) => unsupported(*reason, ""),
        Ok(_) => results::directive(read).to_string(),
        Err(refusal) => format!("refused with {}: {refusal}", refusal.number()),
    };
    writeln!(
        out,
        "{}  {said}",
        setting(&directive.name, &directive.value)
    )
}

/// The case, the phase, the mode, the markers, and what the first call finds.
fn print_head(out: &mut impl Write, walked: &Walked) -> Result<()> {
    let Walked { case, call, .. } = walked;
    write!(
        out,
        "{:<3}  phase {}, mode {}",
        case.name, call.phase, case.mode
    )?;
    for marker in &call.markers {
        write!(
            out,
            "; marker {} at {}",
            plain(&marker.name),
            marker.position
        )?;
    }
    let held = entry(&case.entry);
    if std::ptr::eq(*call, &case.calls[0]) && !held.is_empty() {
        write!(out, "; before: {}", held.join(", "))?;
    }
    let none = if call.rules.is_empty() {
        "; no rules"
    } else {
        ""
    };
    writeln!(out, "{none}")
}

/// What the transaction holds before a case's first call.
fn entry(entry: &Entry) -> Vec<String> {
    let settings = settings(entry.mode, entry.body_access, entry.body_processor);
    let ranges = (!entry.ranges.is_empty()).then(|| ranges(&entry.ranges));
    let allowed = entry.allowed.then(|| "allowed".to_string());
    let stopped = entry.stopped.then(|| "stopped".to_string());
    let rest = [ranges, allowed, stopped];
    settings.into_iter().chain(rest).flatten().collect()
}

/// What controls have set, each in words.
fn settings(
    mode: Option<Mode>,
    access: Option<bool>,
    processor: Option<BodyProcessor>,
) -> [Option<String>; 3] {
    [
        mode.map(|mode| format!("mode {mode}")),
        access.map(|on| format!("body access {}", on_off(on))),
        processor.map(|name| format!("body processor {name}")),
    ]
}

/// How many rules were visited, and what the visits found.
fn visits(report: Report, rules: usize) -> String {
    let found = [
        (report.missed, "missed"),
        (report.matched, "matched"),
        (report.removed, "removed"),
        (report.errors, "in error"),
    ];
    let all: u64 = found.iter().map(|(count, _)| count).sum();
    let told = found.iter().filter(|(count, _)| *count > 0);
    let told: Vec<String> = told
        .map(|(count, word)| format!("{count} {word}"))
        .collect();
    let told = if told.is_empty() {
        String::new()
    } else {
        format!(": {}", told.join(", "))
    };
    let word = if rules == 1 { "rule" } else { "rules" };
    format!("{all} of {rules} {word}{told}")
}

fn print_rules(out: &mut impl Write, walked: &Walked, phase: &Phase) -> Result<()> {
    let rules = &walked.call.rules;
    let names: Vec<String> = rules.iter().map(rule_name).collect();
    let actions: Vec<String> = rules.iter().map(rule_actions).collect();
    let (rule, action) = (width(&names, RULE), width(&actions, ACTIONS));
    let digits = rules.len().saturating_sub(1).to_string().len();
    for (at, seen) in story(walked, phase).iter().enumerate() {
        let verdict = seen.verdict.map_or("passed".to_string(), |v| v.to_string());
        let (name, actions, words) = (&names[at], &actions[at], &seen.words);
        let line =
            format!("  {at:>digits$}  {name:<rule$}  {actions:<action$}  {verdict:<7}  {words}");
        writeln!(out, "{}", line.trim_end())?;
        let column = " ".repeat(digits + rule + 6);
        for note in notes(walked, at, seen) {
            writeln!(out, "{column}{note}")?;
        }
    }
    Ok(())
}

/// What the directive reader says of each unsupported directive of a matched rule. Where a chain does not close none of its
/// directives acts, and the line `ctl` does not count them; so that is said too.
fn notes(walked: &Walked, at: usize, seen: &Seen) -> Vec<String> {
    if seen.verdict != Some(Verdict::Matched) {
        return Vec::new();
    }
    let open = if seen.closed {
        ""
    } else {
        ", in a chain that does not close"
    };
    let found = walked.rules.records().unsupported_in(at);
    let note = |it: PassedOver| {
        let said = unsupported(it.reason, open);
        format!("{}  {said}", setting(it.name, it.value))
    };
    found.map(note).collect()
}

/// The case format's words, what else there is to say, and the sentence.
fn unsupported(reason: UnsupportedReason, more: &str) -> String {
    format!("unsupported {}{more}: {reason}", reason.number())
}

/// The first unsupported directive of the closed units, as the call tells it, with its text. The sentence stands at the rule.
fn passed_over(walked: &Walked) -> Option<String> {
    let first = walked.result.as_ref().ok()?.unsupported()?;
    let rule = rule_name(&walked.call.rules[first.rule]);
    let mut texts = walked.rules.records().unsupported_in(first.rule);
    let text = texts.next().expect("the call's rules have it");
    let text = setting(text.name, text.value);
    let (at, number, name) = (first.rule, first.reason.number(), first.reason.name());
    Some(format!(
        "first passed over at {at}, {rule}: {text}, reason {number}, {name}"
    ))
}

fn width(entries: &[String], (least, most): (usize, usize)) -> usize {
    let widest = entries.iter().map(String::len).max();
    widest.unwrap_or(0).clamp(least, most)
}

fn rule_name(rule: &Rule) -> String {
    rule.id
        .map_or("no id".to_string(), |id| format!("rule {id}"))
}

/// A rule's actions, the id action left out where it is the rule's id.
fn rule_actions(rule: &Rule) -> String {
    let is_own_id = |it: &&Action| it.kind() == Kind::Id && rule.id == Some(it.number());
    let told = rule.actions.iter().filter(|action| !is_own_id(action));
    let actions = told.map(action).collect::<Vec<_>>().join(", ");
    match (rule.link, actions.is_empty()) {
        (true, false) => format!("link {actions}"),
        (true, true) => "link".to_string(),
        (false, _) => actions,
    }
}

fn action(action: &Action) -> String {
    let name = action.kind().word();
    match action.kind().operands() {
        Operands::Nothing => name.to_string(),
        Operands::Number => format!("{name} {}", action.number()),
        Operands::Text => format!("{name} {}", plain(action.text())),
        Operands::Texts => setting(action.text(), action.value()),
    }
}

fn setting(name: &[u8], value: &[u8]) -> String {
    format!("{}={}", plain(name), plain(value))
}

fn print_field(out: &mut impl Write, name: &str, value: &str) -> Result<()> {
    writeln!(out, "  {name:<8}  {value}")
}

/// The controls after the call.
fn controls(walked: &Walked, found: &CallResult) -> String {
    let settings = settings(found.mode, found.body_access, found.body_processor);
    let ranges = (!found.ranges.is_empty()).then(|| ranges(&found.ranges));
    let rest = [ranges, targets(walked, found)];
    or_dash(settings.into_iter().chain(rest).flatten().collect(), "; ")
}

/// The targets that the call added, and how many were held before.
fn targets(walked: &Walked, found: &CallResult) -> Option<String> {
    let added: Vec<String> = found.targets.iter().map(target).collect();
    let all = walked.transaction.record().controls.targets as usize;
    let before = match all - added.len() {
        0 => None,
        1 => Some("1 target held before".to_string()),
        before => Some(format!("{before} targets held before")),
    };
    let added = (!added.is_empty()).then(|| format!("targets {}", added.join(" ")));
    let parts: Vec<String> = added.into_iter().chain(before).collect();
    (!parts.is_empty()).then(|| parts.join(", "))
}

fn ranges(ranges: &[(u64, u64)]) -> String {
    let listed: Vec<String> = ranges.iter().take(LISTED).map(range).collect();
    let (word, listed) = (
        if ranges.len() == 1 { "range" } else { "ranges" },
        listed.join(" "),
    );
    match ranges.len().saturating_sub(LISTED) {
        0 => format!("{word} {listed}"),
        more => format!("{word} {listed} and {more} more"),
    }
}

/// What becomes of the request.
fn request(walked: &Walked, found: &CallResult) -> String {
    if walked.held {
        return "stopped before this call".to_string();
    }
    if walked.allowed {
        return "allowed before this call".to_string();
    }
    match (&found.intervention, found.answer) {
        (Stop::New(stop), _) => stopped(stop),
        (_, Answer::RuleError(index)) => {
            format!("rule error at {index}; what was closed before stands")
        }
        (_, Answer::Done) if found.allowed => "allowed".to_string(),
        _ => "goes on".to_string(),
    }
}

fn stopped(stop: &Intervention) -> String {
    let ids = or_dash(stop.ids.iter().map(u64::to_string).collect(), " ");
    let mut parts = vec![format!("stopped, status {}, ids {ids}", stop.status)];
    parts.extend(stop.drop.then(|| "connection dropped".to_string()));
    let texts = [
        ("to", &stop.url),
        ("msg", &stop.msg),
        ("logdata", &stop.logdata),
        ("rev", &stop.rev),
        ("ver", &stop.ver),
    ];
    for (name, text) in texts {
        parts.extend(text.as_ref().map(|text| format!("{name} {}", plain(text))));
    }
    let numbers = [
        ("severity", stop.severity),
        ("maturity", stop.maturity),
        ("accuracy", stop.accuracy),
    ];
    for (name, number) in numbers {
        parts.extend(number.map(|number| format!("{name} {number}")));
    }
    parts.join(", ")
}

/// A text as it is, or in quotes where it has anything that could be mistaken.
pub fn plain(text: &[u8]) -> String {
    let is_plain = |byte: &u8| byte.is_ascii_graphic() && !matches!(byte, b',' | b'"' | b'\\');
    if text.is_empty() || !text.iter().all(is_plain) {
        return quoted(text);
    }
    String::from_utf8_lossy(text).into_owned()
}

fn or_dash(parts: Vec<String>, between: &str) -> String {
    if parts.is_empty() {
        "-".to_string()
    } else {
        parts.join(between)
    }
}
