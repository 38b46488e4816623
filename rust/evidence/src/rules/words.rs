//! A decision as the 96 words that a loader gives, and the answer of a mend as its four.

use std::iter::once;
use viertompu::{MendWords, Mending, NoMagic, Plan, Refusal, Words, MEND_WORDS, WORDS};

pub type Decision = Result<Plan, Refusal>;

/// The numbers of the answers, in the order of the checks.
pub fn numbers() -> impl Iterator<Item = u32> {
    once(0).chain(Refusal::NUMBERS.iter().copied())
}

/// The words of a decision. Those of a refusal are its number and item, and zeros.
pub fn words(decision: &Decision) -> Words {
    let numbers = match decision {
        Ok(plan) => plan_numbers(plan),
        Err(refusal) => vec![refusal.number(), refusal.item()],
    };
    let mut words = [0; WORDS];
    words[..numbers.len()].copy_from_slice(&numbers);
    words
}

/// The answer of a mend.
pub type MendAnswer = Result<Mending, NoMagic>;

/// The number of a mend's answer, and its words, which are zeros where nothing was mended.
pub fn mend_words(answer: &MendAnswer) -> (u32, MendWords) {
    match *answer {
        Ok(Mending::HeaderFound) => (0, [0; MEND_WORDS]),
        Ok(Mending::Mended { offset, old, new }) => (0, [1, offset, old, new]),
        Err(NoMagic) => (NoMagic::NUMBER, [0; MEND_WORDS]),
    }
}

/// Number and item 0, then the plan.
fn plan_numbers(plan: &Plan) -> Vec<u32> {
    let mut numbers = vec![0, 0, plan.header_offset, plan.entry, plan.eax, plan.ebx];
    numbers.extend([plan.block.start, plan.block.end]);
    numbers.extend(plan.segments.iter().flat_map(|s| [s.start, s.load_end, s.extent_end]));
    numbers.extend(plan.modules.iter().flat_map(|m| [m.start, m.end]));
    numbers.push(plan.false_headers);
    numbers
}
