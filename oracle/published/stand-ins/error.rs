//! Stands in for src/error.rs: the errors that the published files make, and
//! two for what is not published.

/// Why something could not be done.
#[rustfmt::skip]
#[derive(Debug)]
pub enum Error {
    InvalidActionArgument { action: String, message: String },
    UnknownAction { name: String },
    UnknownOperator { name: String },
    UnknownTransformation { name: String },
    UnknownVariable { name: String },
    /// An operator was to be made from this argument. No operator is published.
    NoOperator { argument: String },
    /// A rule text or a body was to be read. Their parsers are not published.
    NoParser,
}

pub type Result<T> = std::result::Result<T, Error>;
