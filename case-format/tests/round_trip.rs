//! A case that is printed and read again is the same case.

use case_format::{
    Action, BodyProcessor, Call, Case, Directive, Entry, Item, Kind, Marker, Mode, Outcome, Place,
    Reader, Rule,
};

/// Everything in a text.
#[track_caller]
fn items(text: &[u8]) -> Vec<Item> {
    let mut reader = Reader::new(text);
    let next = || reader.item().expect("the text can be read");
    std::iter::from_fn(next).collect()
}

fn printed(item: &Item) -> String {
    match item {
        Item::Case(case) => format!("{case}\n"),
        Item::Directive(directive) => format!("{directive}\n"),
    }
}

#[track_caller]
fn leads_back(item: Item) {
    let text = printed(&item);
    assert_eq!(items(text.as_bytes()), [item], "{text}");
}

/// The stored texts are older than this crate: its reader must take them, and its printer give the same cases again.
#[test]
fn stored_cases() {
    let stored = [
        "cases/c1-c16.cases",
        "oracle/tests/readings.cases",
        "cases/recorded.cases",
    ];
    for name in stored {
        let path = format!("{}/../{name}", env!("CARGO_MANIFEST_DIR"));
        let text = std::fs::read_to_string(path).expect("the file is there");
        let found = items(text.as_bytes());
        let lines = text.lines().filter(|line| line.starts_with("case "));
        let cases = found.iter().filter(|item| matches!(item, Item::Case(_)));
        assert_eq!(cases.count(), lines.count(), "{name}");
        found.into_iter().for_each(leads_back);
    }
}

/// Recorded cases are stored as they are printed, but for the comments.
#[test]
fn recorded_cases_line_by_line() {
    let path = concat!(env!("CARGO_MANIFEST_DIR"), "/../cases/recorded.cases");
    let text = std::fs::read_to_string(path).expect("the file is there");
    let lines = text
        .lines()
        .filter(|line| !line.trim_start().starts_with('#'));
    let stored: String = lines.map(|line| format!("{line}\n")).collect();
    let again: String = items(text.as_bytes()).iter().map(printed).collect();
    assert!(again == stored, "a recorded case is printed in another way");
}

/// All that a case can say.
fn whole() -> Case {
    let second = Call {
        phase: u64::MAX,
        rules: Vec::new(),
        markers: Vec::new(),
    };
    Case {
        name: "A-1.b".to_string(),
        mode: Mode::DetectionOnly,
        block_status: u64::MAX,
        entry: Entry {
            mode: Some(Mode::Off),
            body_access: Some(false),
            body_processor: Some(BodyProcessor::Multipart),
            ranges: vec![(5, 1), (0, u64::MAX), (5, 1)],
            allowed: true,
            stopped: true,
        },
        calls: vec![whole_call(), second],
    }
}

/// A rule without actions, one with an action of each kind, and two markers.
fn whole_call() -> Call {
    let action = |kind: &Kind| Action::of(*kind, 7, b"a \"b\"\\\x00\xFF", b";");
    let marker = |name: &[u8], position| Marker {
        name: name.to_vec(),
        position,
    };
    let link = Rule {
        id: Some(0),
        link: true,
        outcome: Outcome::MatchedVariable,
        actions: Vec::new(),
    };
    let closing = Rule {
        id: None,
        link: false,
        outcome: Outcome::Error,
        actions: Kind::ALL.iter().map(action).collect(),
    };
    Call {
        phase: 0,
        rules: vec![link, closing],
        markers: vec![marker(b"\n", 9), marker(b"", 0)],
    }
}

#[test]
fn a_case_with_everything() {
    leads_back(Item::Case(whole()));
    let text = whole().to_string();
    for line in [
        "entry-body-access Off",
        "entry-range 5 1",
        "rule 0 link matched-var",
        "rule - error",
        "  skip 7",
        r#"  redirect "a \"b\"\\\x00\xFF""#,
        r#"  ctl "a \"b\"\\\x00\xFF" ";""#,
        r#"marker "\x0A" 9"#,
    ] {
        assert!(text.lines().any(|found| found == line), "{line}");
    }
}

#[test]
fn comments_change_nothing() {
    let case = whole();
    let text = case.with_comments(|place| {
        Some(match place {
            Place::Call(call) => format!("call {call}"),
            Place::Rule(call, rule) => format!("rule {rule} of {call}"),
        })
    });
    assert!(text.contains("\nrule - error\n  # rule 1 of 0\n  other\n"));
    assert!(text.ends_with("\ncall 18446744073709551615\n# call 1\nend"));
    assert_eq!(items(text.as_bytes()), [Item::Case(case)]);
}

/// Random numbers that a seed repeats.
struct Random(u64);

impl Random {
    fn draw(&mut self) -> u64 {
        self.0 ^= self.0 << 13;
        self.0 ^= self.0 >> 7;
        self.0 ^= self.0 << 17;
        self.0
    }

    fn below(&mut self, most: u64) -> u64 {
        self.draw() % most
    }

    fn number(&mut self) -> u64 {
        let shift = self.below(64);
        self.draw() >> shift
    }

    fn pick<T: Copy>(&mut self, from: &[T]) -> T {
        from[self.below(from.len() as u64) as usize]
    }

    fn maybe<T>(&mut self, made: impl Fn(&mut Self) -> T) -> Option<T> {
        (self.below(2) == 0).then(|| made(self))
    }

    fn some<T>(&mut self, most: u64, made: impl Fn(&mut Self) -> T) -> Vec<T> {
        (0..self.below(most + 1)).map(|_| made(self)).collect()
    }

    /// Bytes of all sorts, those with a meaning in a text more often.
    fn text(&mut self) -> Vec<u8> {
        self.some(12, |random| match random.below(3) {
            0 => random.pick(b"\"\\x# \t\n"),
            1 => random.below(256) as u8,
            _ => b'a' + random.below(26) as u8,
        })
    }
}

fn random_case(random: &mut Random) -> Case {
    Case {
        name: format!("R-{}.{}", random.number(), random.below(10)),
        mode: random.pick(Mode::ALL),
        block_status: random.number(),
        entry: Entry {
            mode: random.maybe(|random| random.pick(Mode::ALL)),
            body_access: random.maybe(|random| random.below(2) == 0),
            body_processor: random.maybe(|random| random.pick(BodyProcessor::ALL)),
            ranges: random.some(3, |random| (random.number(), random.number())),
            allowed: random.below(2) == 0,
            stopped: random.below(2) == 0,
        },
        calls: (0..=random.below(3)).map(|_| random_call(random)).collect(),
    }
}

fn random_call(random: &mut Random) -> Call {
    Call {
        phase: random.number(),
        rules: random.some(4, random_rule),
        markers: random.some(3, |random| Marker {
            name: random.text(),
            position: random.number(),
        }),
    }
}

fn random_rule(random: &mut Random) -> Rule {
    Rule {
        id: random.maybe(Random::number),
        link: random.below(2) == 0,
        outcome: random.pick(Outcome::ALL),
        actions: random.some(5, |random| {
            let (kind, number) = (random.pick(Kind::ALL), random.number());
            Action::of(kind, number, &random.text(), &random.text())
        }),
    }
}

#[test]
fn random_cases() {
    let mut random = Random(0x9E37_79B9_7F4A_7C15);
    for _ in 0..3_000 {
        leads_back(Item::Case(random_case(&mut random)));
        leads_back(Item::Directive(Directive {
            name: random.text(),
            value: random.text(),
        }));
    }
}
