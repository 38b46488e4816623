//! What the review program prints for a submission.

use crate::input::review_board;
use crate::loaders::{run, Loader};
use std::fmt::Write;
use viertompu::{read_words, Plan};

/// The most bytes read from standard input.
pub const MAX_INPUT: usize = 12_288;

/// The lines printed for a submission, by a loader.
pub fn printed(loader: Loader, submission: &[u8]) -> String {
    if submission.len() > MAX_INPUT {
        return format!("input over {MAX_INPUT} bytes\n");
    }
    match read_words(&run(loader, &review_board::case(submission)).words) {
        Ok(plan) => lines(&plan).expect("a string takes all text"),
        Err(refusal) => format!("refused {} {}\n", refusal.number(), refusal.item()),
    }
}

fn lines(plan: &Plan) -> Result<String, std::fmt::Error> {
    let mut text = String::new();
    for s in plan.loaded_segments() {
        let (start, load_end, extent_end) = (s.start, s.load_end, s.extent_end);
        writeln!(text, "kernel {start:08X} {load_end:08X} {extent_end:08X} {:08X}", plan.entry)?;
    }
    for (index, module) in plan.placed_modules().iter().enumerate() {
        writeln!(text, "module {index} {:08X} {:08X}", module.start, module.end)?;
    }
    writeln!(text, "info {:08X} {:08X}", plan.block.start, plan.block.end)?;
    Ok(text)
}
