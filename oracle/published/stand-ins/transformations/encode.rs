//! Stands in for src/transformations/encode.rs. The oracle's rules have no
//! transformation, so each name that transformations/mod.rs uses is its `None_`.

pub use super::None_ as Base64Encode;
pub use super::None_ as HexEncode;
pub use super::None_ as Md5;
pub use super::None_ as Sha1;
pub use super::None_ as Sha256;
pub use super::None_ as UrlEncode;
pub use super::None_ as Utf8ToUnicode;
