//! The evidence for viertompu beside its proofs: the rules read a second and a third time, and the
//! proved library held against both on inputs without end.
//!
//! - [`rules`]: the numbers and words of the rules, which the others share
//! - [`input`]: what goes in
//! - [`loaders`]: who loads it
//! - [`compare`]: what holds them against each other
//!
//! ```text
//! cargo test --release                    # every test; 200,000 generated cases among them
//! cargo run --release --bin case 1 123    # one generated case, by seed and index, on every loader
//! cargo run --release --bin speed         # how long a large load takes
//! ```

pub mod compare;
pub mod input;
pub mod loaders;
pub mod rules;
