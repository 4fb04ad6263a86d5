// Stands in for the published crate's own lib.rs: the modules and no more.

#[allow(unused_imports)] // flow.rs, of which nothing is used, is empty
pub mod actions;
pub mod engine;
pub mod error;
pub mod operators;
pub mod parser;
pub mod transformations;
pub mod variables;
