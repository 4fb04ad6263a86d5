//! A rule set of the shape that the OWASP Core Rule Set has in phase 2: 500 rules, 2,300 actions, 40 markers, 100 chains.
//!
//! 14 files, each with four paranoia levels. A level begins with a rule that jumps to the file's end marker where the request
//! is not checked at that level, so that at level 1 each file is left after its first level. Detection rules have id, msg,
//! logdata, ver and severity; their block is pass, as under anomaly scoring. Some have the ctl:auditLogParts of the
//! version 3 rules. A third of them start chains of 2 to 4 rules; the rules after a starter have no id. Tags, setvar,
//! transformations and all else without an effect in the phase loop are left out, as a host leaves them out. Every msg is
//! a text of its own, of some 45 bytes. The markers of the files that have no rule in phase 2 stand after all rules.

use beside::case::{outcome, Case};
use tivembo::{Act, Builder, RuleSet};

use crate::cases;

const FILES: u64 = 14;
const UNITS: u64 = 304;
const CHAINS: u64 = 100;
const AUDITED: u64 = 112;
const MARKERS: usize = 40;

const VERSION: &[u8] = b"OWASP_CRS/4.0.0";
const LOGDATA: &[u8] = b"Matched Data: %{TX.0} found within %{MATCHED_VAR_NAME}: %{MATCHED_VAR}";

#[derive(Default)]
struct Drawn {
    rules: Builder,
    outcomes: Vec<u8>,
    /// How many detection rules with their chains there are so far, and how many chains.
    units: u64,
    chains: u64,
    actions: usize,
}

/// A request that is checked at a paranoia level, and of whose checks few match.
pub fn case(paranoia: u64) -> Case {
    let mut drawn = Drawn {
        rules: RuleSet::builder(),
        ..Drawn::default()
    };
    for file in 0..FILES {
        drawn.file(file, paranoia);
    }
    for k in FILES as usize..MARKERS {
        let name = format!("END-RESPONSE-{}-DATA-LEAKAGES", 950 + k);
        drawn.rules.marker(name.as_bytes());
    }
    assert_eq!((drawn.units, drawn.chains), (UNITS, CHAINS));
    assert_eq!((drawn.outcomes.len(), drawn.actions), (500, 2_300));
    cases::case(drawn.rules, drawn.outcomes, Vec::new())
}

impl Drawn {
    fn file(&mut self, file: u64, paranoia: u64) {
        let number = 920 + file;
        let marker = format!("END-REQUEST-{number}-APPLICATION-ATTACK");
        let first = if file < 10 { 13 } else { 12 };
        let mut id = 1_000 * number + 100;
        for (level, units) in [(1, first), (2, 6), (3, 2), (4, 1)] {
            self.jump(1_000 * number + 10 + 2 * level, &marker, paranoia < level);
            for _ in 0..units {
                self.unit(id);
                id += 10;
            }
        }
        self.rules.marker(marker.as_bytes());
    }

    fn rule(&mut self, id: Option<u64>, link: bool, actions: &[Act<'_>], matches: bool) {
        self.rules.rule(id, link, actions);
        self.actions += actions.len();
        self.outcomes.push(match matches {
            true => outcome::MATCHED_VARIABLE,
            false => outcome::MISSED,
        });
    }

    /// The rule at the start of a level.
    fn jump(&mut self, id: u64, marker: &str, matches: bool) {
        let jump = Act::SkipAfter(marker.as_bytes());
        let actions = [Act::Id(id), Act::Pass, Act::Ver(VERSION), jump];
        self.rule(Some(id), false, &actions, matches);
    }

    /// A detection rule with its chain. Of 304, six match with all their rules, and fifteen if they are chains with the first.
    fn unit(&mut self, id: u64) {
        let unit = self.units;
        let is_among = |some: u64| unit * some / UNITS != (unit + 1) * some / UNITS;
        let (is_chain, is_audited) = (is_among(CHAINS), is_among(AUDITED));
        let (matches, begins) = (unit % 50 == 7, is_chain && unit % 20 == 3);
        self.units += 1;
        let msg = format!("Remote Command Execution: Pattern {unit} Found");
        let mut actions = vec![
            Act::Id(id),
            Act::Pass,
            Act::Msg(msg.as_bytes()),
            Act::LogData(LOGDATA),
        ];
        if is_audited {
            actions.push(Act::Ctl(b"auditLogParts", b"+E"));
        }
        actions.extend([Act::Ver(VERSION), Act::Severity(2)]);
        if is_chain {
            actions.push(Act::Chain);
        }
        self.rule(Some(id), is_chain, &actions, matches || begins);
        if is_chain {
            self.rest_of_chain(matches);
        }
    }

    /// The rules after a chain's starter: seven chains of ten have one, two have two, and one has three.
    fn rest_of_chain(&mut self, matches: bool) {
        let rest = match self.chains % 10 {
            0..=6 => 1,
            7..=8 => 2,
            _ => 3,
        };
        self.chains += 1;
        for _ in 1..rest {
            self.rule(None, true, &[Act::Chain], matches);
        }
        self.rule(None, false, &[], matches);
    }
}
