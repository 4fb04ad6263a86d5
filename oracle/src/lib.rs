//! The published phase loop, fed with given outcomes.
//!
//! A [`Case`](case_format::Case) says what a transaction holds, and which rules
//! with which outcomes each call brings. [`Run`] makes real compiled rules of
//! them, whose operators and variables give these outcomes, calls the published
//! `Transaction::run_phase`, and reads the results from the transaction.
//! [`RustDomain`] says which cases can be fed to it.

mod domain;
mod feed;
mod found;
mod given;
mod merged;
mod numbered;
mod run;
mod timed;

pub use domain::RustDomain;
pub use found::{directive_answer, reason};
pub use merged::merged;
pub use run::{directive, run_case, Run};
pub use timed::{Missed, Timed};

/// What the published directive reader takes and gives.
pub use published::engine::control::CtlDirective;
pub use published::engine::ruleset::RuleEngineMode;
pub use published::parser::ControlAction;
