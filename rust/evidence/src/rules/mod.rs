//! The numbers and words of the rules, which inputs, loaders and comparison share.

pub mod bytes;
pub mod limits;
pub mod offsets;
mod words;

pub use words::{mend_words, numbers, words, Decision, MendAnswer};

/// Something to be placed: a module or the information block.
#[derive(Clone, Copy, Debug, PartialEq, Eq)]
pub struct Item {
    pub length: u64,
    pub boundary: u64,
    /// the address at or below which it ends, if it has a ceiling
    pub ceiling: Option<u64>,
}
