//! Stands in for src/transformations/decode.rs. The oracle's rules have no
//! transformation, so each name that transformations/mod.rs uses is its `None_`.

pub use super::None_ as Base64Decode;
pub use super::None_ as Base64DecodeExt;
pub use super::None_ as CssDecode;
pub use super::None_ as EscapeSeqDecode;
pub use super::None_ as HexDecode;
pub use super::None_ as HtmlEntityDecode;
pub use super::None_ as JsDecode;
pub use super::None_ as SqlHexDecode;
pub use super::None_ as UrlDecode;
pub use super::None_ as UrlDecodeUni;
