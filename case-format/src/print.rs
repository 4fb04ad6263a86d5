//! Cases and directive questions as text.

use std::fmt;

use crate::case::{Call, Case, Directive, Entry};
use crate::text::{on_off, or_dash, quoted};

/// A line of a case after which a comment can stand.
#[derive(Debug, Clone, Copy, PartialEq, Eq)]
pub enum Place {
    /// The line of the call with this index.
    Call(usize),
    /// The line of a rule: the call's index, and the rule's in it.
    Rule(usize, usize),
}

/// Without an end after its last line.
impl fmt::Display for Case {
    fn fmt(&self, f: &mut fmt::Formatter<'_>) -> fmt::Result {
        f.write_str(&self.with_comments(|_| None))
    }
}

/// A `ctl` line outside a case.
impl fmt::Display for Directive {
    fn fmt(&self, f: &mut fmt::Formatter<'_>) -> fmt::Result {
        write!(f, "ctl {} {}", quoted(&self.name), quoted(&self.value))
    }
}

impl Case {
    /// The case as text, with a comment line after each line for which there is one. Read again, it is the same case.
    ///
    /// ```
    /// use case_format::{Call, Case, Entry, Mode, Place};
    /// let case = Case {
    ///     name: "empty".to_string(),
    ///     mode: Mode::On,
    ///     block_status: 403,
    ///     entry: Entry::default(),
    ///     calls: vec![Call { phase: 1, rules: Vec::new(), markers: Vec::new() }],
    /// };
    /// let text = case.with_comments(|place| (place == Place::Call(0)).then(|| "no rules".to_string()));
    /// assert_eq!(text, "case empty\nmode On\nblock-status 403\ncall 1\n# no rules\nend");
    /// ```
    pub fn with_comments(&self, comment: impl Fn(Place) -> Option<String>) -> String {
        let mut lines = vec![
            format!("case {}", self.name),
            format!("mode {}", self.mode),
            format!("block-status {}", self.block_status),
        ];
        lines.extend(self.entry.lines());
        for (index, call) in self.calls.iter().enumerate() {
            call.print(index, &comment, &mut lines);
        }
        lines.push("end".to_string());
        lines.join("\n")
    }
}

impl Entry {
    /// The lines of what is set.
    fn lines(&self) -> Vec<String> {
        let set = [
            ("mode", self.mode.map(|mode| mode.word())),
            ("body-access", self.body_access.map(on_off)),
            ("body-processor", self.body_processor.map(|it| it.word())),
        ];
        let set = set.into_iter().filter_map(|(word, value)| {
            let value = value?;
            Some(format!("entry-{word} {value}"))
        });
        let ranges = self.ranges.iter();
        let ranges = ranges.map(|(start, end)| format!("entry-range {start} {end}"));
        let flags = [
            (self.allowed, "entry-allowed"),
            (self.stopped, "entry-stopped"),
        ];
        let flags = flags.into_iter().filter(|(is_set, _)| *is_set);
        let flags = flags.map(|(_, word)| word.to_string());
        set.chain(ranges).chain(flags).collect()
    }
}

impl Call {
    fn print(
        &self,
        index: usize,
        comment: &impl Fn(Place) -> Option<String>,
        lines: &mut Vec<String>,
    ) {
        lines.push(format!("call {}", self.phase));
        lines.extend(comment(Place::Call(index)).map(|said| format!("# {said}")));
        for (at, rule) in self.rules.iter().enumerate() {
            let link = if rule.link { " link" } else { "" };
            lines.push(format!("rule {}{link} {}", or_dash(rule.id), rule.outcome));
            lines.extend(comment(Place::Rule(index, at)).map(|said| format!("  # {said}")));
            let actions = rule.actions.iter();
            lines.extend(actions.map(|action| format!("  {action}")));
        }
        for marker in &self.markers {
            let name = quoted(&marker.name);
            lines.push(format!("marker {name} {}", marker.position));
        }
    }
}
