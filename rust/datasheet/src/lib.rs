//! Measures what docs/DATASHEET.md says of the proved core.

pub mod abi;
pub mod archive;
pub mod bench;
pub mod exports;
pub mod figures;
pub mod formula;
pub mod frames;
pub mod nesting;
pub mod painted;
mod sequences;
pub mod sheet;
pub mod slow;
pub mod source;
pub mod timing;
pub mod worst;
