//! Stands in for the crate `once_cell`: the standard library has the one type
//! that the published files use.

pub mod sync {
    //! A value that is made when it is first asked for.
    pub use std::sync::LazyLock as Lazy;
}
