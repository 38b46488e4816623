//! What holds loaders against each other, and each against the rules.
//!
//! - [`same`], [`sound`]: two outcomes of a case are one; an outcome is right by itself
//! - [`common_outcome`]: what all loaders and the model give for a case
//! - [`handover`]: reads a finished load as a kernel would, and finds every byte accounted for
//! - [`elf`]: the headers of an ELF image as they stand in it
//! - [`by_address`]: an outcome is what the address-by-address model says
//! - [`coverage`]: how often each number came, each rule was broken and each goal was reached
//! - [`mending`]: two mends of an image are one; a mend is right by itself
//! - [`printed`]: what the review program prints for a submission

pub mod by_address;
pub mod coverage;
pub mod elf;
pub mod handover;
pub mod mending;
pub mod printed;

use crate::input::case::Case;
use crate::loaders::{run, second, Outcome, PROVED};
use crate::rules::{numbers, words};
use viertompu::read_words;

/// Says where two outcomes of a case first differ.
pub fn same(case: &Case, one: &Outcome, other: &Outcome) -> Result<(), String> {
    if one.words != other.words {
        let both = one.words.iter().zip(&other.words);
        let index = both.take_while(|(a, b)| a == b).count();
        let (a, b) = (one.words[index], other.words[index]);
        return Err(format!("word {index} is {a:08X} and {b:08X}"));
    }
    if one.window != other.window {
        let both = one.window.iter().zip(&other.window);
        let offset = both.take_while(|(a, b)| a == b).count();
        let address = u64::from(case.first) + offset as u64;
        return Err(format!("the windows differ at address {address:08X}"));
    }
    Ok(())
}

/// Is the outcome right by itself? A refusal leaves an all-zero plan and the window as it was;
/// a load hands over what the submission holds.
pub fn sound(case: &Case, outcome: &Outcome) -> Result<(), String> {
    if !numbers().any(|number| number == outcome.words[0]) {
        return Err("no such number".into());
    }
    let decision = read_words(&outcome.words);
    if words(&decision) != outcome.words {
        return Err("stray words".into());
    }
    match decision {
        Ok(plan) => handover::check(case, &plan, outcome),
        Err(_) if outcome.window != case.window => Err("a refusal wrote the window".into()),
        Err(_) => Ok(()),
    }
}

/// What every loader leaves behind for a case, right by itself and what the model says; or where one
/// of them differs.
pub fn common_outcome(case: &Case) -> Result<Outcome, String> {
    let outcome = run(second::load, case);
    sound(case, &outcome)?;
    by_address::agrees(case, &outcome, u128::MAX)?;
    for (name, loader) in PROVED {
        same(case, &run(loader, case), &outcome).map_err(|what| format!("{name}: {what}"))?;
    }
    Ok(outcome)
}
