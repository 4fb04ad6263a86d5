//! Reads a text item by item.

use std::fmt;
use std::io::BufRead;

use crate::case::{Case, Directive, Item};
use crate::domain::{Anything, Domain};
use crate::draft::{Draft, Step};
use crate::line::{Line, Reason};

/// The line that can't be read, and why. It prints as the format says.
#[derive(Debug, Clone, PartialEq, Eq)]
pub struct ReadError {
    /// Counted from 1.
    pub line: usize,
    /// In words.
    pub reason: Reason,
}

impl fmt::Display for ReadError {
    fn fmt(&self, f: &mut fmt::Formatter<'_>) -> fmt::Result {
        write!(f, "error line {}: {}", self.line, self.reason)
    }
}

impl std::error::Error for ReadError {}

/// Reads a text item by item. After an error nothing more is read.
///
/// ```
/// use case_format::Reader;
/// let mut reader = Reader::new(&b"# a comment\ncase a_b\n"[..]);
/// let error = reader.item().unwrap_err();
/// assert_eq!(error.to_string(), "error line 2: a name has letters, digits, '-' and '.' only");
/// ```
pub struct Reader<R> {
    input: R,
    domain: Box<dyn Domain>,
    /// The line read last, without blanks at its start and without its end.
    line: Vec<u8>,
    number: usize,
}

impl<R: BufRead> Reader<R> {
    /// A reader that takes all that the format can say.
    pub fn new(input: R) -> Self {
        Self::within(input, Anything)
    }

    /// A reader that takes what a program takes.
    pub fn within(input: R, domain: impl Domain + 'static) -> Self {
        Self {
            input,
            domain: Box::new(domain),
            line: Vec::new(),
            number: 0,
        }
    }

    /// The next item, none at the end of the text.
    pub fn item(&mut self) -> Result<Option<Item>, ReadError> {
        if !self.next_line()? {
            return Ok(None);
        }
        let begun = begin(Line::new(&self.line), &*self.domain);
        match begun.map_err(|reason| self.error(reason))? {
            Begun::Whole(item) => Ok(Some(item)),
            Begun::Case(name) => Ok(Some(Item::Case(self.case(name)?))),
        }
    }

    /// Goes to the next line that says something. False at the end.
    fn next_line(&mut self) -> Result<bool, ReadError> {
        loop {
            self.line.clear();
            let read = self.input.read_until(b'\n', &mut self.line);
            match read.map_err(|error| self.error(error.to_string()))? {
                0 => return Ok(false),
                _ => self.number += 1,
            }
            if self.line.last() == Some(&b'\n') {
                self.line.pop();
            }
            let is_blank = |byte: &&u8| matches!(byte, b' ' | b'\t');
            let blanks = self.line.iter().take_while(is_blank).count();
            self.line.drain(..blanks);
            if !matches!(self.line.first(), None | Some(b'#')) {
                return Ok(true);
            }
        }
    }

    /// The case whose first line was read.
    fn case(&mut self, name: String) -> Result<Case, ReadError> {
        let mut draft = Draft::new(name);
        while self.next_line()? {
            let line = Line::new(&self.line);
            if draft.take(line, self.number, &*self.domain)? == Step::End {
                return draft.finish().map_err(|reason| self.error(reason));
            }
        }
        Err(self.error("the text ends inside a case".into()))
    }

    fn error(&self, reason: Reason) -> ReadError {
        ReadError {
            line: self.number,
            reason,
        }
    }
}

/// What a line outside a case is.
enum Begun {
    /// The first line of a case with this name.
    Case(String),
    /// All of an item.
    Whole(Item),
}

fn begin(mut line: Line, domain: &dyn Domain) -> Result<Begun, Reason> {
    let begun = match line.word()? {
        "case" => Begun::Case(name(line.word()?)?),
        "ctl" => Begun::Whole(Item::Directive(directive(&mut line, domain)?)),
        other => return Err(format!("{other} begins no line outside a case")),
    };
    line.end()?;
    Ok(begun)
}

fn name(word: &str) -> Result<String, Reason> {
    let is_good = |byte: u8| byte.is_ascii_alphanumeric() || matches!(byte, b'-' | b'.');
    if word.bytes().all(is_good) {
        Ok(word.to_string())
    } else {
        Err("a name has letters, digits, '-' and '.' only".into())
    }
}

fn directive(line: &mut Line, domain: &dyn Domain) -> Result<Directive, Reason> {
    let directive = Directive {
        name: line.text()?,
        value: line.text()?,
    };
    domain.text(&directive.name)?;
    domain.text(&directive.value)?;
    Ok(directive)
}
