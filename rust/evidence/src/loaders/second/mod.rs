//! The second loader: checks in the order of the rules, placing by sets of spans, and the window
//! written only after every check has passed.
//!
//! Physical addresses are plain `u64`; offsets in the image are `image::ImageOffset`.

mod address_fields;
mod block;
mod elf;
mod image;
mod kernel;
mod memory_map;
mod mending;
mod spans;
mod submission;

pub use mending::mend;

use crate::input::case::Case;
use crate::rules::limits::{ADDRESS_SPACE, BIOS_DATA_END, BOOT_MAGIC, MAX_LINE, PAGE, TOP, WORD};
use crate::rules::{words, Decision, Item};
use block::Block;
use image::Segment;
use kernel::Kernel;
use memory_map::MemoryMap;
use spans::{Span, SpanSet};
use std::array::from_fn;
use std::ops::Range;
use submission::{Module, Submission};
use viertompu::{Plan, Refusal, Words};

/// Loads the case into the window, or refuses and leaves the window as it was.
pub fn load(case: &Case, window: &mut [u8]) -> Words {
    let decision: Decision = examine(case).and_then(|examined| {
        let placed = place(&examined)?;
        write(&examined, &placed, window);
        Ok(plan_of(&examined, &placed))
    });
    words(&decision)
}

/// What is to be loaded: everything known before the kernel meets the board.
struct Examined<'a> {
    kernel: Kernel<'a>,
    submission: Submission<'a>,
    command_line: &'a [u8],
    map: MemoryMap<'a>,
    window: Span,
}

/// Checks 1 to 14, with 25 straight after 7, and 18 to 20 before 14.
fn examine(case: &Case) -> Result<Examined<'_>, Refusal> {
    let submission = Submission::read(&case.submission)?;
    if case.operator.len() > MAX_LINE || case.operator.contains(&0) {
        return Err(Refusal::BadOperatorLine);
    }
    let Range { start, end } = case.addresses();
    if end > TOP {
        return Err(Refusal::WindowPastTop);
    }
    let map = MemoryMap::read(&case.map)?;
    let kernel = Kernel::read(submission.image)?;
    let command_line = match &case.operator[..] {
        [] => submission.line,
        operator => operator,
    };
    Ok(Examined { kernel, submission, command_line, map, window: Span { start, end } })
}

impl Examined<'_> {
    /// The modules in list order.
    fn module_items(&self) -> Vec<Item> {
        let boundary = if self.kernel.pages { PAGE } else { WORD };
        let item = |module: &Module| {
            let length = module.data.len() as u64;
            Item { length, boundary, ceiling: module.ceiling }
        };
        self.submission.modules.iter().map(item).collect()
    }

    /// The information block.
    fn block_item(&self) -> Item {
        Item { length: block::length(self), boundary: WORD, ceiling: None }
    }
}

/// Where the items stand.
struct Placed {
    modules: Vec<Span>,
    block: Span,
}

/// Checks 15 to 17.
fn place(examined: &Examined) -> Result<Placed, Refusal> {
    let mut free = open_around(examined).ok_or(Refusal::KernelNotOpen)?;
    let mut modules = Vec::new();
    for (index, item) in examined.module_items().into_iter().enumerate() {
        let span = take(&mut free, item).ok_or(Refusal::NoRoomForModule { index: index as u32 })?;
        modules.push(span);
    }
    let block = take(&mut free, examined.block_item()).ok_or(Refusal::NoRoomForBlock)?;
    Ok(Placed { modules, block })
}

/// The open memory around the kernel's extents, or nothing where an address of them is not open.
fn open_around(examined: &Examined) -> Option<SpanSet> {
    let mut free = examined.map.usable().within(examined.window);
    free.remove(Span { start: 0, end: BIOS_DATA_END });
    let extents = || examined.kernel.segments.iter().map(Segment::extent);
    if !extents().all(|extent| free.covers(extent)) {
        return None;
    }
    extents().for_each(|extent| free.remove(extent));
    Some(free)
}

/// Takes the lowest place of an item out of the free memory, or nothing where it has none. All of
/// an item lies below its ceiling, so only the free memory below it counts.
fn take(free: &mut SpanSet, item: Item) -> Option<Span> {
    let below = Span { start: 0, end: item.ceiling.unwrap_or(ADDRESS_SPACE) };
    let start = free.within(below).lowest_place(item.length, item.boundary)?;
    let span = Span { start, end: start + item.length };
    free.remove(span);
    Some(span)
}

/// Writes the kernel's segments, the modules and the information block.
fn write(examined: &Examined, placed: &Placed, window: &mut [u8]) {
    let lent = examined.window;
    for segment in &examined.kernel.segments {
        part(window, lent, segment.load()).copy_from_slice(segment.load_bytes);
        part(window, lent, segment.bss()).fill(0);
    }
    for (module, &span) in examined.submission.modules.iter().zip(&placed.modules) {
        part(window, lent, span).copy_from_slice(module.data);
    }
    let block = Block::new(examined, placed);
    part(window, lent, placed.block).copy_from_slice(&block.bytes());
}

/// The window's bytes that stand for a span.
fn part(window: &mut [u8], lent: Span, span: Span) -> &mut [u8] {
    let offset = |address: u64| (address - lent.start) as usize;
    &mut window[offset(span.start)..offset(span.end)]
}

fn plan_of(examined: &Examined, placed: &Placed) -> Plan {
    let kernel = &examined.kernel;
    Plan {
        header_offset: word(kernel.header_offset.0),
        false_headers: kernel.false_headers,
        entry: kernel.entry,
        eax: BOOT_MAGIC,
        ebx: word(placed.block.start),
        block: word_span(placed.block),
        segments: from_fn(|i| kernel.segments.get(i).map(word_segment).unwrap_or_default()),
        modules: from_fn(|i| placed.modules.get(i).copied().map(word_span).unwrap_or_default()),
    }
}

/// A segment of a load as words.
fn word_segment(segment: &Segment) -> viertompu::Segment {
    viertompu::Segment {
        start: word(segment.start),
        load_end: word(segment.load_end),
        extent_end: word(segment.extent_end),
    }
}

/// A span of a load as words.
fn word_span(span: Span) -> viertompu::Span {
    viertompu::Span { start: word(span.start), end: word(span.end) }
}

/// A number of a load as a word: all of them lie within the window, so below 2^32.
fn word(number: u64) -> u32 {
    u32::try_from(number).expect("a load's numbers lie below 2^32")
}
