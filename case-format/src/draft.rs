//! A case as far as it was read.

use crate::action::{Action, Kind, Operands};
use crate::case::{Call, Case, Entry, Marker, Rule};
use crate::domain::Domain;
use crate::line::{number, Line, Reason};
use crate::read::ReadError;
use crate::words::{BodyProcessor, Mode, Outcome};

#[derive(PartialEq)]
pub(crate) enum Step {
    More,
    End,
}

pub(crate) struct Draft {
    name: String,
    mode: Option<Mode>,
    block_status: Option<u64>,
    entry: Entry,
    calls: Vec<Call>,
    /// The lines of the last call's markers.
    marker_lines: Vec<usize>,
}

impl Draft {
    pub(crate) fn new(name: String) -> Self {
        Self {
            name,
            mode: None,
            block_status: None,
            entry: Entry::default(),
            calls: Vec::new(),
            marker_lines: Vec::new(),
        }
    }

    /// Takes a line in, which has this number in the text.
    pub(crate) fn take(
        &mut self,
        mut line: Line,
        number: usize,
        domain: &dyn Domain,
    ) -> Result<Step, ReadError> {
        let here = |reason| ReadError {
            line: number,
            reason,
        };
        let word = line.word().map_err(here)?;
        if matches!(word, "call" | "end") {
            self.check_positions(domain)?;
        }
        let step = self.step(word, &mut line, domain).map_err(here)?;
        if word == "marker" {
            self.marker_lines.push(number);
        }
        line.end().map_err(here)?;
        Ok(step)
    }

    /// A marker may stand before the rules that it counts, so positions are looked at when the call is whole.
    fn check_positions(&self, domain: &dyn Domain) -> Result<(), ReadError> {
        let Some(call) = self.calls.last() else {
            return Ok(());
        };
        for (marker, &line) in call.markers.iter().zip(&self.marker_lines) {
            let taken = domain.position(marker.position, call.rules.len());
            taken.map_err(|reason| ReadError { line, reason })?;
        }
        Ok(())
    }

    fn step(&mut self, word: &str, line: &mut Line, domain: &dyn Domain) -> Result<Step, Reason> {
        match (word, self.calls.last_mut()) {
            ("end", _) => return Ok(Step::End),
            ("call", _) => self.begin_call(line, domain)?,
            (_, None) => self.head(word, line, domain)?,
            (_, Some(call)) => body(call, word, line, domain)?,
        }
        Ok(Step::More)
    }

    fn begin_call(&mut self, line: &mut Line, domain: &dyn Domain) -> Result<(), Reason> {
        if self.mode.is_none() || self.block_status.is_none() {
            return Err("mode and block-status come before the first call".into());
        }
        let phase = line.number()?;
        domain.phase(phase)?;
        self.calls.push(Call {
            phase,
            rules: Vec::new(),
            markers: Vec::new(),
        });
        self.marker_lines.clear();
        Ok(())
    }

    /// A line before the first call.
    fn head(&mut self, word: &str, line: &mut Line, domain: &dyn Domain) -> Result<(), Reason> {
        let entry = &mut self.entry;
        match word {
            "mode" => once(&mut self.mode, mode(line)?),
            "block-status" => {
                let status = line.number()?;
                domain.block_status(status)?;
                once(&mut self.block_status, status)
            }
            "entry-mode" => once(&mut entry.mode, mode(line)?),
            "entry-body-access" => once(&mut entry.body_access, body_access(line)?),
            "entry-body-processor" => once(&mut entry.body_processor, body_processor(line)?),
            "entry-range" => {
                entry.ranges.push((line.number()?, line.number()?));
                Ok(())
            }
            "entry-allowed" => flag(&mut entry.allowed),
            "entry-stopped" => flag(&mut entry.stopped),
            other => Err(format!("{other} begins no line before a case's first call")),
        }
    }

    pub(crate) fn finish(self) -> Result<Case, Reason> {
        let (Some(mode), Some(block_status), false) =
            (self.mode, self.block_status, self.calls.is_empty())
        else {
            return Err("a case has a mode, a block-status and a call".into());
        };
        Ok(Case {
            name: self.name,
            mode,
            block_status,
            entry: self.entry,
            calls: self.calls,
        })
    }
}

/// A line of a call.
fn body(call: &mut Call, word: &str, line: &mut Line, domain: &dyn Domain) -> Result<(), Reason> {
    match word {
        "rule" => call.rules.push(rule(line)?),
        "marker" => call.markers.push(marker(line, domain)?),
        _ => {
            let action = action(word, line, domain)?;
            let rule = call.rules.last_mut();
            let rule = rule.ok_or("an action comes before the first rule")?;
            rule.actions.push(action);
        }
    }
    Ok(())
}

fn rule(line: &mut Line) -> Result<Rule, Reason> {
    let id = match line.word()? {
        "-" => None,
        id => Some(number(id)?),
    };
    let mut word = line.word()?;
    let link = word == "link";
    if link {
        word = line.word()?;
    }
    let outcome = Outcome::from_word(word);
    Ok(Rule {
        id,
        link,
        outcome: outcome.ok_or("an outcome is missed, matched, matched-var or error")?,
        actions: Vec::new(),
    })
}

fn marker(line: &mut Line, domain: &dyn Domain) -> Result<Marker, Reason> {
    let name = line.text()?;
    domain.text(&name)?;
    Ok(Marker {
        name,
        position: line.number()?,
    })
}

/// An action line: the kind decides what follows its name.
fn action(word: &str, line: &mut Line, domain: &dyn Domain) -> Result<Action, Reason> {
    let kind = Kind::from_word(word).ok_or(format!("{word} begins no line of a call"))?;
    let (mut number, mut text, mut value) = (0, Vec::new(), Vec::new());
    match kind.operands() {
        Operands::Nothing => {}
        Operands::Number => number = line.number()?,
        Operands::Text => text = line.text()?,
        Operands::Texts => (text, value) = (line.text()?, line.text()?),
    }
    domain.text(&text)?;
    domain.text(&value)?;
    let action = Action::of(kind, number, &text, &value);
    domain.action(&action)?;
    Ok(action)
}

fn mode(line: &mut Line) -> Result<Mode, Reason> {
    line.one_of(Mode::from_word, "a mode is On, DetectionOnly or Off")
}

fn body_access(line: &mut Line) -> Result<bool, Reason> {
    let on = |word: &str| match word {
        "On" => Some(true),
        "Off" => Some(false),
        _ => None,
    };
    line.one_of(on, "body access is On or Off")
}

fn body_processor(line: &mut Line) -> Result<BodyProcessor, Reason> {
    line.one_of(
        BodyProcessor::from_word,
        "a body processor is URLENCODED, MULTIPART, JSON or XML",
    )
}

/// Sets what a case may say once.
fn once<T>(place: &mut Option<T>, value: T) -> Result<(), Reason> {
    match place.replace(value) {
        None => Ok(()),
        Some(_) => Err("a case says this once".into()),
    }
}

fn flag(place: &mut bool) -> Result<(), Reason> {
    match std::mem::replace(place, true) {
        false => Ok(()),
        true => Err("a case says this once".into()),
    }
}
