//! The case format: one text for the proved library, for the published Rust, and for people.
//!
//! A [`Case`] says what a transaction holds and which calls are made on it. [`Reader`] reads cases, and `ctl` questions outside
//! of them, from a text; a case's `Display` prints it. A [`CallResult`] is what a call gave, and prints as the format's results;
//! a [`DirectiveAnswer`] is what a directive reader said.
//!
//! Nothing is run here: the crate knows neither the proved library nor the Rust. The format can say more than either takes. A
//! program that takes less gives the reader its [`Domain`], so that the line that goes too far is named.
//!
//! ```
//! use case_format::{Item, Kind, Reader};
//!
//! let text = b"case C15\nmode On\nblock-status 403\ncall 2\nrule 90 matched\n  deny\n  status 406\nend\n";
//! let mut reader = Reader::new(&text[..]);
//! let Some(Item::Case(case)) = reader.item().unwrap() else {
//!     panic!("the text has a case");
//! };
//! assert_eq!(case.calls[0].rules[0].actions[1].kind(), Kind::Status);
//! assert_eq!(format!("{case}\n").as_bytes(), text);
//! assert!(reader.item().unwrap().is_none());
//! ```

mod action;
mod case;
mod directive;
mod domain;
mod draft;
mod line;
mod print;
mod read;
mod result;
pub mod text;
mod words;

pub use action::{Action, Kind, Operands};
pub use case::{Call, Case, Directive, Entry, Item, Marker, Rule};
pub use directive::{DirectiveAnswer, UnsupportedReason};
pub use domain::{Anything, Domain};
pub use line::Reason;
pub use print::Place;
pub use read::{ReadError, Reader};
pub use result::{Answer, CallResult, CaseResult, Intervention, Stop, Unsupported};
pub use words::{BodyProcessor, Mode, Outcome, Verdict};
