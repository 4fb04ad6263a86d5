//! The published Rust as one crate. `build.rs` checks the published files,
//! copies them to the build folder, puts the stand-ins beside them and appends
//! one module line to three of them; the whole is taken in here.

include!(concat!(env!("OUT_DIR"), "/tree/root.rs"));

/// What the published code says of the unsupported directives that it passes over.
pub use tracing::{listen, Ignored};
