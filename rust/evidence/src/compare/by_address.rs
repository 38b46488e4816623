//! An outcome is what the address-by-address model says.

use crate::input::case::Case;
use crate::loaders::model::{self, Reading};
use crate::loaders::Outcome;
use crate::rules::bytes::u32_at;
use crate::rules::offsets::structure;
use crate::rules::words;
use viertompu::{read_words, Refusal};

/// Boards up to this cost are placed on by the model where many cases are run.
pub const SMALL_BOARD: u128 = 1 << 18;

/// Says where an outcome differs from the model; gives false where placing on the board would cost
/// the model more than `most`.
pub fn agrees(case: &Case, outcome: &Outcome, most: u128) -> Result<bool, String> {
    let reading = match model::read(case) {
        Err(refused) => return refuses(refused.refusal, outcome).map(|()| true),
        Ok(reading) if reading.board.cost() > most => return Ok(false),
        Ok(reading) => reading,
    };
    match reading.place() {
        Err(refusal) => refuses(refusal, outcome)?,
        Ok(starts) => loads(&reading, &starts, outcome)?,
    }
    Ok(true)
}

fn refuses(refusal: Refusal, outcome: &Outcome) -> Result<(), String> {
    if words(&Err(refusal)) == outcome.words {
        Ok(())
    } else {
        Err(format!("address by address it is {refusal:?}"))
    }
}

/// A load stands where the model puts it and tells the model's memory sizes.
fn loads(reading: &Reading, starts: &[u64], outcome: &Outcome) -> Result<(), String> {
    let plan = read_words(&outcome.words).map_err(|_| "address by address it is a load")?;
    let kernel = &reading.kernel;
    if [plan.header_offset, plan.entry].map(u64::from) != [kernel.header_offset, kernel.entry] {
        return Err("address by address it is another header or entry".into());
    }
    let told = plan.loaded_segments().iter().map(|s| [s.start, s.load_end, s.extent_end]);
    let segments = kernel.segments.iter().map(|s| [s.start, s.load_end, s.extent_end]);
    let segments: Vec<[u64; 3]> = segments.collect();
    if told.map(|numbers| numbers.map(u64::from)).ne(segments.iter().copied()) {
        return Err(format!("address by address the segments are {segments:X?}"));
    }
    let mut told: Vec<u64> = plan.placed_modules().iter().map(|m| u64::from(m.start)).collect();
    told.push(u64::from(plan.block.start));
    if told != starts {
        return Err(format!("address by address the starts are {starts:X?}"));
    }
    let block = (u64::from(plan.block.start) - reading.board.window.start) as usize;
    let size = |offset: usize| u64::from(u32_at(&outcome.window, block + offset));
    let (mem_lower, mem_upper) = reading.board.memory_sizes();
    if (size(structure::MEM_LOWER), size(structure::MEM_UPPER)) != (mem_lower, mem_upper) {
        return Err(format!("address by address the sizes are {mem_lower} and {mem_upper}"));
    }
    Ok(())
}
