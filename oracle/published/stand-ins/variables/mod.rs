//! Stands in for src/variables/mod.rs: the modules and the names that the
//! published files take from here.

mod collection;
mod request;
mod resolver;
mod response;
mod tx;

pub use collection::{Collection, HashMapCollection, MutableCollection};
pub use request::RequestData;
pub use resolver::VariableResolver;
pub use response::ResponseData;
pub use tx::TxCollection;
