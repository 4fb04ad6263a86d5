//! What the programs that run beside the published Rust share.

pub mod case;
pub mod found;
pub mod model;
pub mod ours;
pub mod random;
pub mod values;
