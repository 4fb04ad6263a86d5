//! Stands in for src/engine/mod.rs: the modules and no more. Some variables of
//! the published files are used in log messages alone, and those are dropped.

pub mod chain;
#[allow(unused_variables)]
pub mod control;
pub mod intervention;
pub mod phase;
#[allow(unused_variables)]
pub mod ruleset;
pub mod scoring;
#[allow(unused_variables)]
pub mod transaction;
