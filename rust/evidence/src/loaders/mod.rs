//! The loaders: the proved one, and two other readings of the rules. These share the numbers of
//! [`crate::rules`] with each other and nothing with the proved one.
//!
//! - [`second`]: a loader that places items by sets of spans
//! - [`model`]: checks and places as the rules say them, one address at a time
//! - [`proved`]: the proved library, by its words and by the names that the crate gives them
//! - [`mending`]: the same three as menders of a checksum

pub mod mending;
pub mod model;
pub mod proved;
pub mod second;

use crate::input::case::Case;
use viertompu::Words;

/// A loader: it loads a case into a window that begins as a copy of the case's.
pub type Loader = fn(&Case, &mut [u8]) -> Words;

/// What a loader left behind.
#[derive(Clone, Debug, PartialEq, Eq)]
pub struct Outcome {
    pub words: Words,
    pub window: Vec<u8>,
}

/// Runs a loader on a copy of the case's window.
pub fn run(loader: Loader, case: &Case) -> Outcome {
    let mut window = case.window.clone();
    let words = loader(case, &mut window);
    Outcome { words, window }
}

/// The loaders held against the second one.
pub const PROVED: [(&str, Loader); 2] =
    [("proved", proved::load), ("proved, named", proved::load_named)];
