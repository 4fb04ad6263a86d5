//! The proved phase call and directive reader, for a gateway in Rust.
//!
//! A gateway makes one [`RuleSet`] for each phase when it reads its rules, and one [`Transaction`] for each request. For
//! each phase it finds the outcome of every rule and calls [`Transaction::run_phase`]; the [`Phase`] that comes back says
//! which rules were visited, which ids and data were added, and whether the request is stopped. Texts are found again with
//! [`RuleSets`].
//!
//! ```
//! use tivembo::{Act, Mode, Outcome, RuleSet, RuleSets, Transaction};
//!
//! let mut headers = RuleSet::builder();
//! headers.rule(Some(1), false, &[Act::Id(1), Act::Ctl(b"ruleRemoveById", b"942100-942999")]);
//! let headers = headers.build()?;
//! let mut body = RuleSet::builder();
//! body.rule(Some(942_999), false, &[Act::Id(942_999), Act::Deny]);
//! body.rule(Some(943_000), false, &[Act::Id(943_000), Act::Deny, Act::Msg(b"odd pallet number")]);
//! let body = body.build()?;
//! let rules = RuleSets::new().with(1, &headers).with(2, &body);
//!
//! let matched = Outcome::MatchedVariable;
//! let mut transaction = Transaction::new();
//! transaction.run_phase(&headers, 1, Mode::On, 403, &[matched])?;
//! let phase = transaction.run_phase(&body, 2, Mode::On, 403, &[matched, matched])?;
//! assert_eq!(phase.ids(), [943_000]); // 942999 is removed
//!
//! let stop = transaction.intervention().expect("943000 has deny").with_texts(&rules)?;
//! assert_eq!((stop.status, stop.log), (403, Some(&b"odd pallet number"[..])));
//! # Ok::<(), Box<dyn std::error::Error>>(())
//! ```
//!
//! # A directive without an effect
//!
//! A ctl directive that is unsupported changes nothing, and the phase goes on. [`Phase::unsupported`] has the rule and the
//! reason of the first one in the units that the call closed, for the gateway's log:
//!
//! ```
//! use tivembo::{Act, Mode, Outcome, RuleSet, Transaction};
//!
//! let mut builder = RuleSet::builder();
//! builder.rule(Some(40), false, &[Act::Id(40), Act::Ctl(b"requestBodyAccess", b"no")]);
//! let rules = builder.build()?;
//!
//! let mut transaction = Transaction::new();
//! let phase = transaction.run_phase(&rules, 1, Mode::On, 403, &[Outcome::Matched])?;
//! let first = phase.unsupported().expect("no is no value of requestBodyAccess");
//! let passed = rules.records().unsupported_in(first.rule).next().expect("the rule has it");
//! let line = format!("phase 1, rule at {}: passed over {passed}", first.rule);
//! assert_eq!(
//!     line,
//!     "phase 1, rule at 0: passed over requestBodyAccess=no: requestBodyAccess takes On or Off, as in requestBodyAccess=Off"
//! );
//! # Ok::<(), Box<dyn std::error::Error>>(())
//! ```
//!
//! [`Records::unsupported_in`] needs no call: a gateway that asks it for every rule when it reads its rules tells of all of
//! them, once.
//!
//! # Removed ranges
//!
//! A transaction holds the ranges of removed ids merged, whatever the order in which they were added: sorted by start, and those
//! that overlap or touch as one. [`Controls::ranges`] has them.
//!
//! ```
//! use tivembo::{Act, Mode, Outcome, RuleSet, Transaction};
//!
//! let mut builder = RuleSet::builder();
//! builder.rule(Some(1), false, &[Act::Ctl(b"ruleRemoveById", b"950000, 942200-942299")]);
//! builder.rule(Some(2), false, &[Act::Ctl(b"ruleRemoveById", b"942100-942199")]);
//! let rules = builder.build()?;
//!
//! let mut transaction = Transaction::new();
//! transaction.run_phase(&rules, 1, Mode::On, 403, &[Outcome::Matched; 2])?;
//! let held: Vec<_> = transaction.controls().ranges().collect();
//! assert_eq!(held, [(942_100, 942_299), (950_000, 950_000)]);
//! # Ok::<(), Box<dyn std::error::Error>>(())
//! ```
//!
//! The limit of 256 counts the ranges held and those that the rules of a call have, as they are written: [`Refusal::TooManyRanges`]
//! comes also where they would merge. Only a host that makes records itself can hold ranges in another form. Its calls are
//! refused ([`Refusal::Miscounted`]), and [`Controls::range_fault`] says why; [`Transaction::remove_range`] adds ranges in any order.
//!
//! # What is proved, and what is not
//!
//! Behind every call stands a function of libhost.a that is proved to do what the definitions say, whatever it is lent: see
//! docs/AUDIT.md. This crate itself is plain Rust. It makes the records, declares the calls (src/exported.rs, which
//! tools/declarations writes from the proved sources) and puts names on the numbers; it is tested, not proved. All `unsafe`
//! code is in src/exported.rs and src/words.rs.
//!
//! # What the host does for real rule sets
//!
//! - **Which rules, which outcomes.** The host puts each rule into the rule set of its phase and evaluates it: operators,
//!   variables, transformations and the removed targets are its own. Only rules that are visited and not removed need their
//!   outcome; the others' may be anything, for example [`Outcome::Missed`].
//! - **Actions without an effect in the loop** (setvar, captures, tags, log, t: and so on) are left out, or are
//!   [`Act::Other`]. They count towards the 4,096 actions.
//! - **block.** The host maps it by its own default action: the status is given with each call. A site whose default
//!   action is not a stop gives [`Act::Pass`] or what else it stands for instead of [`Act::Block`].
//! - **Unknown variables.** A removed target is kept whatever its variable is; the host drops those that it does not know,
//!   and applies the others when it finds the outcomes.
//! - **Texts are ASCII.** A call with any byte of 80 (hexadecimal) or more in its text is refused, also in a msg.

#![warn(missing_docs)]

mod act;
mod check;
pub mod constants;
mod controls;
mod directive;
mod exported;
mod intervention;
mod limits;
mod phase;
mod ranges;
pub mod raw;
pub mod records;
mod refusal;
mod ruleset;
mod rulesets;
mod transaction;
mod unsupported;
mod values;
mod words;

pub use act::Act;
pub use constants::limits::{RANGES as MOST_RANGES, TARGETS as MOST_TARGETS};
pub use controls::Controls;
pub use directive::{read_directive, Directive, Target};
pub use intervention::{Intervention, Metadata};
pub use limits::{Broken, Limit, Where};
pub use phase::{Answer, Phase};
pub use ranges::RangeFault;
pub use records::{
    Action, Answer as HostAnswer, CallSettings, DataEntry, HostChangeAnswer, HostControls,
    HostIntervention, HostMarker, HostMetadata, HostNumber, HostPlace, HostQueryAnswer, HostTarget,
    HostTransaction, JournalEntry, Marker, Part, Report, Rule, UnsupportedAt,
};
pub use refusal::Refusal;
pub use ruleset::{Builder, Records, RuleSet};
pub use rulesets::{NoSuchText, RuleSets};
pub use transaction::Transaction;
pub use unsupported::{PassedOver, UnsupportedDirective, UnsupportedReason};
pub use values::{BodyProcessor, Data, Mode, Outcome, Place, Verdict};
