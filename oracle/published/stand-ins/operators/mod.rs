//! Stands in for src/operators/mod.rs. The operators themselves are not
//! published, so none can be made from a text; the oracle brings its own.

use std::sync::Arc;

use crate::error::{Error, Result};
use crate::parser::OperatorSpec;

mod traits;

pub use traits::{Operator, OperatorResult};

/// Always an error, which carries the argument. `evaluate_rule` comes here for
/// a rule whose argument has a macro, and hands the error on: this is how a
/// rule error comes about.
pub fn compile_operator(spec: &OperatorSpec) -> Result<Arc<dyn Operator>> {
    Err(Error::NoOperator {
        argument: spec.argument.clone(),
    })
}
