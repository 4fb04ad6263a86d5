//! Stands in for src/transformations/normalize.rs. The oracle's rules have no
//! transformation, so each name that transformations/mod.rs uses is its `None_`.

pub use super::None_ as CmdLine;
pub use super::None_ as CompressWhitespace;
pub use super::None_ as Lowercase;
pub use super::None_ as NormalizePath;
pub use super::None_ as NormalizePathWin;
pub use super::None_ as RemoveComments;
pub use super::None_ as RemoveCommentsChar;
pub use super::None_ as RemoveNulls;
pub use super::None_ as RemoveWhitespace;
pub use super::None_ as ReplaceComments;
pub use super::None_ as ReplaceNulls;
pub use super::None_ as Trim;
pub use super::None_ as TrimLeft;
pub use super::None_ as TrimRight;
pub use super::None_ as Uppercase;
