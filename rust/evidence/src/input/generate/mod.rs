//! Seeded inputs: sound ones on boards of all kinds, nudged ones and damaged ones. A case depends
//! on its seed and index alone.

mod address_fields;
mod board;
mod ceilings;
mod damage;
mod elf;
mod image;

pub use image::image;

use crate::input::case::Case;
use crate::input::draft::{Draft, Header, Module, Version};
use crate::input::elf::Elf;
use crate::input::pair::Pair;
use crate::input::review_board;
use crate::input::rng::Rng;
use crate::rules::limits::{
    FLOOR, FULL_HEADER, LOADER_NAME, MAX_LINE, MAX_MAP, MAX_MODULES, MAX_PAIRS, MAX_STRING,
    MIN_PAIR_SIZE, MODULE_ENTRY, PAGE, PAGE_ALIGNED, SHORT_HEADER, STRUCTURE, WORD,
};
use crate::rules::Item;
use board::{Board, Needs};
use std::ops::Range;

/// The length of images that are longer than the part searched for a header.
const LONG_IMAGE: usize = 9000;

type MakeBoard = fn(&mut Rng, &Needs) -> Board;

/// How a sound draft is made.
#[derive(Clone, Copy)]
struct Recipe {
    modules: fn(&mut Rng, bool) -> Vec<Module>,
    board: MakeBoard,
    version: fn(&mut Rng, &mut [Module], &Range<u64>) -> Version,
}

impl Recipe {
    fn on(board: MakeBoard) -> Self {
        Recipe { modules, board, version: ceilings::any_version }
    }

    /// Modules around a ceiling.
    fn at_ceiling() -> Self {
        Recipe { modules: ceilings::modules, board: board::at_ceiling, version: ceilings::close }
    }
}

/// The case of an index in the run of a seed.
pub fn case(seed: u64, index: u64) -> Case {
    let mut rng = Rng::of_case(seed, index);
    let boards: [MakeBoard; 4] = [board::fitted, board::fitted, board::roomy, board::scattered];
    let recipe = match rng.below(100) {
        0 => Recipe::on(board::across_low),
        1..=4 => Recipe::on(board::low),
        5..=7 => Recipe::at_ceiling(),
        _ => Recipe::on(rng.pick(&boards)),
    };
    let mut draft = sound(&mut rng, recipe);
    let name = format!("seed {seed} index {index}");
    match rng.below(20) {
        0..=10 => draft.case(name),
        11 => {
            damage::nudge(&mut rng, &mut draft);
            draft.case(name)
        }
        12..=16 => damage::damaged(&mut rng, draft, damage::all, 1, name),
        17 => damage::damaged(&mut rng, draft, damage::all, 2, name),
        _ => {
            let mut case = draft.case(name);
            damage::scramble(&mut rng, &mut case);
            case
        }
    }
}

/// The submission of an index, made for the review program's board.
pub fn review_submission(seed: u64, index: u64) -> Vec<u8> {
    let mut rng = Rng::of_case(seed, index);
    let draft = sound(&mut rng, Recipe::on(for_review));
    let times = rng.below(2) as usize;
    damage::damaged(&mut rng, draft, damage::of_submission, times, String::new()).submission
}

fn for_review(rng: &mut Rng, needs: &Needs) -> Board {
    let first = FLOOR + rng.pick(&[0, 0, 0, 4, 0x1000, 0xB_F00]);
    Board {
        pairs: review_board::pairs().to_vec(),
        load_addrs: board::laid(rng, needs, first),
        window: review_board::case(&[]).addresses(),
    }
}

/// A draft that breaks no rule before check 15.
fn sound(rng: &mut Rng, recipe: Recipe) -> Draft {
    let shape = Shape::new(rng);
    let flags = flags(rng);
    let mut modules = (recipe.modules)(rng, flags & PAGE_ALIGNED != 0);
    let line = text(rng, MAX_LINE);
    let operator = text(rng, MAX_LINE);
    let kernel = shape.extents();
    let sizes = pair_sizes(rng, kernel.len() + modules.len());
    let boundary = if flags & PAGE_ALIGNED != 0 { PAGE } else { WORD };
    let in_force = if operator.is_empty() { &line } else { &operator };
    let item = |length: u64, boundary: u64| Item { length, boundary, ceiling: None };
    let lengths = modules.iter().map(|module| module.data.len() as u64);
    let mut items: Vec<_> = lengths.map(|length| item(length, boundary)).collect();
    items.push(item(block_length(&sizes, in_force, &modules), WORD));
    let board = (recipe.board)(rng, &Needs { kernel, items, pairs: sizes.len() });
    let version = (recipe.version)(rng, &mut modules, &board.window);
    let (header, elf) = shape.headers(flags, &board.load_addrs);
    Draft {
        version,
        filler: filler(rng, shape.image_length()),
        decoys: decoys(rng, header.offset),
        header,
        elf,
        modules,
        line,
        operator,
        pairs: sized(&board.pairs, &sizes),
        first: board.window.start as u32,
        window: board.window.end.saturating_sub(board.window.start) as usize,
        pattern: rng.below(255) as usize,
    }
}

fn sized(pairs: &[Pair], sizes: &[u32]) -> Vec<Pair> {
    let with_size = |(&pair, &size)| Pair { size, ..pair };
    pairs.iter().zip(sizes).map(with_size).collect()
}

/// A kernel before it has addresses.
enum Shape {
    AddressFields(address_fields::Shape),
    Elf(elf::Shape),
}

impl Shape {
    fn new(rng: &mut Rng) -> Self {
        if rng.below(20) < 7 {
            Shape::Elf(elf::Shape::new(rng))
        } else {
            Shape::AddressFields(address_fields::Shape::new(rng))
        }
    }

    fn image_length(&self) -> usize {
        match self {
            Shape::AddressFields(shape) => shape.image_length,
            Shape::Elf(shape) => shape.image_length,
        }
    }

    /// The lengths of the kernel's extents.
    fn extents(&self) -> Vec<u64> {
        match self {
            Shape::AddressFields(shape) => shape.extents(),
            Shape::Elf(shape) => shape.extents(),
        }
    }

    /// The headers of the image, its extents at these addresses.
    fn headers(&self, flags: u32, load_addrs: &[u64]) -> (Header, Option<Elf>) {
        match self {
            Shape::AddressFields(shape) => (shape.header(flags, load_addrs[0]), shape.elf.clone()),
            Shape::Elf(shape) => (shape.header(flags), Some(shape.elf(load_addrs))),
        }
    }
}

/// Any of bits 0 and 1. Bit 16 is the shape's.
fn flags(rng: &mut Rng) -> u32 {
    rng.below(4) as u32
}

/// Up to 16 modules; fewer where they take whole pages.
fn modules(rng: &mut Rng, pages: bool) -> Vec<Module> {
    let most = MAX_MODULES as u64;
    let count = match rng.below(8) {
        0 if !pages || rng.one_in(4) => rng.pick(&[12, 13, 14, 15, most, most]),
        1 if !pages || rng.one_in(4) => rng.below(most + 1),
        2 | 3 => 0,
        _ => rng.below(4),
    };
    (0..count).map(|_| module(rng)).collect()
}

fn module(rng: &mut Rng) -> Module {
    let length = match rng.below(20) {
        0..=11 => 1 + rng.below(40),
        12..=14 => rng.pick(&[1, 3, 4, 5]),
        15 => rng.pick(&[4095, 4096, 4097]),
        16..=18 => 1 + rng.below(600),
        _ if rng.one_in(100) => 1 + rng.below(200_000),
        _ => 1 + rng.below(3000),
    };
    Module { data: rng.bytes(length as usize), string: text(rng, MAX_STRING), ceiling: 0 }
}

/// A text of up to `most` bytes, often empty.
fn text(rng: &mut Rng, most: usize) -> Vec<u8> {
    let length = match rng.below(16) {
        0..=7 => 0,
        8..=13 => rng.below(12),
        14 => rng.below(most as u64 + 1),
        _ => most as u64,
    };
    rng.text(length as usize)
}

/// The sizes of a map's pairs, where there can be enough of them for each part to have one.
fn pair_sizes(rng: &mut Rng, parts: usize) -> Vec<u32> {
    let least = parts as u64 + 2;
    let count = match rng.below(24) {
        0 => MAX_PAIRS as u64,
        _ => (least + rng.below(5)).min(MAX_PAIRS as u64),
    };
    let least_size = MIN_PAIR_SIZE as u32;
    let mut size = || match rng.below(4) {
        0 => least_size + rng.below(30) as u32,
        _ => least_size,
    };
    let mut sizes: Vec<u32> = (0..count).map(|_| size()).collect();
    if rng.one_in(60) {
        sizes[0] += MAX_MAP as u32 - map_length(&sizes);
    }
    sizes
}

/// The length of a map with pairs of these sizes.
fn map_length(sizes: &[u32]) -> u32 {
    sizes.iter().map(|size| size + 4).sum()
}

/// The information block's length.
fn block_length(sizes: &[u32], line: &[u8], modules: &[Module]) -> u64 {
    let text_size = |text: &[u8]| text.len() + usize::from(!text.is_empty());
    let map = u64::from(map_length(sizes));
    let strings: usize = modules.iter().map(|module| text_size(&module.string)).sum();
    let texts = text_size(LOADER_NAME) + text_size(line) + strings;
    STRUCTURE + MODULE_ENTRY * modules.len() as u64 + map + texts as u64
}

fn filler(rng: &mut Rng, length: usize) -> Vec<u8> {
    if rng.one_in(4) {
        return vec![0; length];
    }
    rng.bytes(length)
}

/// The highest multiple of 4 that is not above an offset.
fn round_down(offset: usize) -> usize {
    let remainder = offset % 4;
    offset - remainder
}

/// Places for a magic with a wrong sum or off the multiples of 4: before the header, also in each
/// other's bytes and in the header's, and behind it.
fn decoys(rng: &mut Rng, header: usize) -> Vec<usize> {
    if header < SHORT_HEADER || rng.one_in(2) {
        return Vec::new();
    }
    let at = rng.below(header as u64) as usize;
    let word = round_down(at);
    match rng.below(8) {
        0 => vec![0],
        1 => vec![at],
        2 => vec![word],
        3 => vec![round_down(word / 2), word],
        4 => vec![header - rng.pick(&[4, 8])],
        5 => (word..header).step_by(4).collect(),
        6 => vec![at, header + FULL_HEADER + 4 * rng.below(8) as usize],
        _ => (0..rng.below(6)).map(|_| 4 * rng.below(header as u64 / 4) as usize).collect(),
    }
}

#[cfg(test)]
mod tests {
    use super::*;

    #[test]
    fn any_damages_go_together() {
        for index in 0..20_000 {
            let mut rng = Rng::of_case(1, index);
            let draft = sound(&mut rng, Recipe::on(board::roomy));
            damage::damaged(&mut rng, draft, damage::all, 8, String::new());
        }
    }
}
