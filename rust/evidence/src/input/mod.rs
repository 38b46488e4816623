//! What goes in: cases that were written by hand, and cases without end.
//!
//! - [`case`]: one input of a loader
//! - [`pair`], [`elf`], [`draft`]: a map, an ELF image's headers and a submission before they are
//!   bytes
//! - [`review_board`]: the board of the review program
//! - [`bench_cases`]: worked cases of the rules with what they must give
//! - [`rng`], [`generate`]: seeded random numbers, and the cases and images made of them

pub mod bench_cases;
pub mod case;
pub mod draft;
pub mod elf;
pub mod generate;
pub mod pair;
pub mod review_board;
pub mod rng;
