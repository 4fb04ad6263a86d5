//! What a run reached, and differences as lines of the case format.

use beside::model::read_directive;
use case_format::text::quoted;
use case_format::Directive;
use oracle::{directive_answer, CtlDirective};

use crate::compare::{model_agrees, sides, Expected, Outcome};
use crate::question::{Damage, Question};

const ANSWERS: [u64; 4] = [0, 2, 6, 7];
const FORMS: [&str; 6] = [
    "unsupported",
    "ruleEngine",
    "ruleRemoveById",
    "ruleRemoveTargetById",
    "requestBodyAccess",
    "requestBodyProcessor",
];

/// 02's reasons, in the order of their numbers.
const REASONS: [&str; 7] = [
    "mode value",
    "id list",
    "target form",
    "body access value",
    "processor",
    "audit",
    "unrecognised",
];

type Test = fn(&Question) -> bool;

/// What a directive's texts and lists can have in them.
const FEATURES: [(&str, Test); 28] = [
    ("name of a form in other letters", |q| {
        let name = q.name.trim_ascii();
        let is_other = |form: &&str| form.as_bytes().eq_ignore_ascii_case(name);
        FORMS[1..]
            .iter()
            .any(|form| is_other(form) && form.as_bytes() != name)
    }),
    ("name trimmed, blank 09", |q| trimmed_of(&q.name, 0x09)),
    ("name trimmed, blank 0A", |q| trimmed_of(&q.name, 0x0A)),
    ("name trimmed, blank 0B", |q| trimmed_of(&q.name, 0x0B)),
    ("name trimmed, blank 0C", |q| trimmed_of(&q.name, 0x0C)),
    ("name trimmed, blank 0D", |q| trimmed_of(&q.name, 0x0D)),
    ("name trimmed, blank 20", |q| trimmed_of(&q.name, 0x20)),
    ("value trimmed of blanks", |q| {
        q.value.first().is_some_and(|&b| is_blank(b))
    }),
    ("name or value empty", |q| {
        q.name.is_empty() || q.value.is_empty()
    }),
    ("byte 00", |q| has(q, |b| b == 0)),
    ("byte 1C to 1F", |q| has(q, |b| (0x1C..=0x1F).contains(&b))),
    ("byte 7F", |q| has(q, |b| b == 0x7F)),
    ("byte 80 to FF", |q| has(q, |b| b >= 0x80)),
    ("plus sign", |q| q.value.contains(&b'+')),
    ("several dashes", |q| most_in_a_part(q, b'-') > 1),
    ("blank beside a dash", |q| {
        q.value
            .windows(2)
            .any(|two| is_blank(two[0]) && two[1] == b'-' || two[0] == b'-' && is_blank(two[1]))
    }),
    ("several ';'", |q| {
        q.value.iter().filter(|&&b| b == b';').count() > 1
    }),
    ("empty part", |q| q.value.windows(2).any(|two| two == b",,")),
    ("leading zero", |q| {
        digit_runs(q).any(|run| run.len() > 1 && run[0] == b'0')
    }),
    ("20 digits", |q| digit_runs(q).any(|run| run.len() == 20)),
    ("21 digits", |q| digit_runs(q).any(|run| run.len() == 21)),
    ("18446744073709551615", |q| {
        digit_runs(q).any(|run| run == b"18446744073709551615")
    }),
    ("18446744073709551616", |q| {
        digit_runs(q).any(|run| run == b"18446744073709551616")
    }),
    ("100 parts or more", |q| {
        q.value.iter().filter(|&&b| b == b',').count() >= 99
    }),
    ("65,536 bytes exactly", |q| {
        q.name.len() == 65_536 || q.value.len() == 65_536
    }),
    ("65,537 bytes or more", |q| {
        q.name.len() > 65_536 || q.value.len() > 65_536
    }),
    ("lists of different length", |q| q.starts != q.ends),
    ("a list of length 0", |q| q.starts == 0 || q.ends == 0),
];

fn is_blank(byte: u8) -> bool {
    matches!(byte, 0x09..=0x0D | 0x20)
}

fn trimmed_of(text: &[u8], byte: u8) -> bool {
    text.first() == Some(&byte) || text.last() == Some(&byte)
}

fn has(question: &Question, test: impl Fn(u8) -> bool) -> bool {
    question
        .name
        .iter()
        .chain(&question.value)
        .any(|&b| test(b))
}

fn most_in_a_part(question: &Question, byte: u8) -> usize {
    let parts = question.value.split(|&b| b == b',');
    let counts = parts.map(|part| part.iter().filter(|&&b| b == byte).count());
    counts.max().unwrap_or(0)
}

fn digit_runs(question: &Question) -> impl Iterator<Item = &[u8]> {
    question.value.split(|b| !b.is_ascii_digit())
}

/// How often each was reached.
#[derive(Default)]
pub struct Reached {
    answers: [u64; ANSWERS.len()],
    forms: [u64; FORMS.len()],
    reasons: [u64; REASONS.len()],
    damages: [u64; Damage::ALL.len()],
    supported: [u64; Damage::ALL.len()],
    features: [u64; FEATURES.len()],
}

impl Reached {
    /// Counts by what the Rust and 01 say, not by what our side answers.
    pub fn count(&mut self, question: &Question, expected: &Expected, answer: u64) {
        let at = ANSWERS.iter().position(|&known| known == answer);
        self.answers[at.expect("there are four answers")] += 1;
        let damage = Damage::ALL
            .iter()
            .position(|&known| known == question.damage);
        let damage = damage.expect("every damage is listed");
        self.damages[damage] += 1;
        if let (0, Expected::Directive(directive)) = (answer, expected) {
            let form = form(directive);
            self.forms[form] += 1;
            self.supported[damage] += u64::from(form != 0);
            if let CtlDirective::Unsupported { reason, .. } = directive {
                self.reasons[oracle::reason(reason).number() as usize - 1] += 1;
            }
        }
        for (count, (_, test)) in self.features.iter_mut().zip(&FEATURES) {
            *count += u64::from(test(question));
        }
    }

    pub fn print(&self) {
        println!("answer");
        for (answer, count) in ANSWERS.iter().zip(self.answers) {
            println!("{count:>10}  {answer}");
        }
        println!("form, where the answer is 0");
        for (form, count) in FORMS.iter().zip(self.forms) {
            println!("{count:>10}  {form}");
        }
        println!(
            "{:>10}  supported in all",
            self.forms[1..].iter().sum::<u64>()
        );
        println!("reason, where the form is unsupported");
        for (reason, count) in REASONS.iter().zip(self.reasons) {
            println!("{count:>10}  {reason}");
        }
        println!("damage, and how many of these were supported");
        for (i, damage) in Damage::ALL.iter().enumerate() {
            println!("{:>10}  {damage:?}, {}", self.damages[i], self.supported[i]);
        }
        println!("in the texts and lists");
        for (count, (name, _)) in self.features.iter().zip(&FEATURES) {
            println!("{count:>10}  {name}");
        }
    }
}

fn form(directive: &CtlDirective) -> usize {
    match directive {
        CtlDirective::Unsupported { .. } => 0,
        CtlDirective::RuleEngine(_) => 1,
        CtlDirective::RuleRemoveById(_) => 2,
        CtlDirective::RuleRemoveTargetById { .. } => 3,
        CtlDirective::RequestBodyAccess(_) => 4,
        CtlDirective::RequestBodyProcessor(_) => 5,
    }
}

/// A difference: the directive, what the Rust says and what our reader did.
pub fn print_difference(question: &Question, expected: &Expected, answer: u64, found: &Outcome) {
    let Question { name, value, .. } = question;
    let (name, value) = (name.clone(), value.clone());
    println!("{}", Directive { name, value });
    println!(
        "#   lists of {} and {} entries",
        question.starts, question.ends
    );
    let said = match expected {
        Expected::Refused(_) => String::new(),
        Expected::Directive(directive) => format!(" {}", directive_answer(directive)),
    };
    println!("#   rust answer {answer}{said}");
    if !model_agrees(question, expected) {
        let read = read_directive(&question.name, &question.value);
        println!("#   model {read}");
    }
    let record = found.record;
    println!(
        "#   ours answer {} form {} value {}",
        record.answer, record.form, record.value
    );
    if let (3, Some((id, target))) = (record.form, sides(&question.value, record.value)) {
        println!(
            "#     sides {} {}",
            quoted(id.as_bytes()),
            quoted(target.as_bytes())
        );
    }
    let before = Outcome::before(question);
    print_changes("starts", found.starts.entries(), before.starts.entries());
    print_changes("ends", found.ends.entries(), before.ends.entries());
}

/// The entries of a list that are not as lent.
fn print_changes(name: &str, found: &[u64], before: &[u64]) {
    let mut line = String::new();
    for (i, (found, before)) in found.iter().zip(before).enumerate() {
        if found != before {
            line += &format!(" {i}:{found}");
        }
    }
    println!("#     {name} written{line}");
}
