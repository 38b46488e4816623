//! Boards: a map, a window and load addresses for a kernel's extents and items of known lengths.

use crate::input::pair::Pair;
use crate::input::rng::Rng;
use crate::rules::limits::{ADDRESS_SPACE, BIOS_DATA_END, FLOOR, LOW_MEMORY, MIB, PAGE, RAM, TOP};
use crate::rules::Item;
use std::ops::Range;

const RESERVED: [u32; 5] = [2, 2, 3, 0, u32::MAX];

/// What the board is made for. The count of pairs is given, as the block's length hangs on it.
pub struct Needs {
    /// the lengths of the kernel's extents
    pub kernel: Vec<u64>,
    pub items: Vec<Item>,
    pub pairs: usize,
}

pub struct Board {
    pub pairs: Vec<Pair>,
    /// where each extent begins
    pub load_addrs: Vec<u64>,
    pub window: Range<u64>,
}

impl Needs {
    /// Enough bytes for kernel and items in any order.
    fn room(&self) -> u64 {
        let items: u64 = self.items.iter().map(|item| item.length + item.boundary + 16).sum();
        let kernel: u64 = self.kernel.iter().map(|length| length + 16).sum();
        kernel + items
    }
}

/// Where the board's lowest bytes lie: mostly at the floor, with room up to the top.
fn origin(rng: &mut Rng, room: u64) -> u64 {
    match rng.below(16) {
        0..=6 => FLOOR,
        7 | 8 => FLOOR + rng.below(5000),
        9 => FLOOR - 1 - rng.below(3000),
        10 => FLOOR - 4 * rng.below(30),
        11 | 12 => FLOOR + PAGE * rng.below(0xE_0000) + rng.pick(&[0, 0, 1, 2, 4]),
        13 | 14 => TOP - room.next_multiple_of(PAGE) - PAGE * rng.below(3),
        _ => {
            let low = rng.below(0x9000);
            rng.pick(&[0, low])
        }
    }
}

/// A region made to measure.
#[derive(Clone, Copy)]
struct Region {
    start: u64,
    end: u64,
    /// the index of the extent that it is made for
    extent: Option<usize>,
}

/// A usable region of the exact length for each extent and for each item; one of them may be off by
/// a byte.
pub fn fitted(rng: &mut Rng, needs: &Needs) -> Board {
    let mut regions = regions(rng, needs);
    let load_addrs = starts(&regions, needs.kernel.len());
    let window = around(rng, &regions);
    while regions.len() > needs.pairs {
        join_two(rng, &mut regions);
    }
    if rng.one_in(2) {
        let index = rng.below(regions.len() as u64) as usize;
        trim(rng, &mut regions[index]);
    }
    let mut pairs = match rng.below(3) {
        0 => wide_with_gaps(rng, &regions),
        _ => regions.iter().map(|r| pair_of(r.start, r.end, RAM)).collect(),
    };
    pad(rng, &mut pairs, needs.pairs, &window);
    Board { pairs, load_addrs, window }
}

/// The starts of the extents' regions.
fn starts(regions: &[Region], extents: usize) -> Vec<u64> {
    let region = |index: usize| regions.iter().find(move |region| region.extent == Some(index));
    (0..extents).map(|index| region(index).expect("each extent has a region").start).collect()
}

/// Makes one region of two neighbours and what lies between them.
fn join_two(rng: &mut Rng, regions: &mut Vec<Region>) {
    let index = rng.below(regions.len() as u64 - 1) as usize;
    regions[index].end = regions.remove(index + 1).end;
}

fn pair_of(start: u64, end: u64, kind: u32) -> Pair {
    Pair::new(start, end.saturating_sub(start), kind)
}

/// The regions in rising order, mostly that of placing.
fn regions(rng: &mut Rng, needs: &Needs) -> Vec<Region> {
    let boundaries: &[u64] = if needs.kernel.len() < 4 { &[1, 1, 4, PAGE] } else { &[1, 1, 4] };
    let boundary = rng.pick(boundaries);
    let extents =
        needs.kernel.iter().map(|&length| Item { length, boundary, ceiling: None }).enumerate();
    let mut wanted: Vec<_> = extents.map(|(index, item)| (item, Some(index))).collect();
    if rng.one_in(3) {
        rng.shuffle(&mut wanted);
    }
    wanted.extend(needs.items.iter().map(|&item| (item, None)));
    if rng.one_in(4) {
        rng.shuffle(&mut wanted);
    }
    let mut at = origin(rng, needs.room() + boundary * needs.kernel.len() as u64);
    let mut regions = Vec::new();
    for (item, extent) in wanted {
        let lead = rng.pick(&[0, 0, 0, 1, 2, 3, 5, 16]);
        let start = (at + lead).next_multiple_of(item.boundary);
        let end = start + item.length;
        regions.push(Region { start, end, extent });
        at = end;
    }
    regions
}

/// Addresses for the extents from a first one up: in any order, with little between them or with a
/// gap that an item fills, or for which it is a byte too long.
pub fn laid(rng: &mut Rng, needs: &Needs, first: u64) -> Vec<u64> {
    let mut order: Vec<usize> = (0..needs.kernel.len()).collect();
    if rng.one_in(2) {
        rng.shuffle(&mut order);
    }
    let measured = rng.one_in(2);
    let mut items = needs.items.iter();
    let mut addresses = vec![0; order.len()];
    let mut at = first;
    for index in order {
        addresses[index] = at;
        at += needs.kernel[index];
        at = match items.next() {
            Some(item) if measured => {
                at.next_multiple_of(item.boundary) + item.length - rng.pick(&[0, 0, 1])
            }
            _ => at + rng.pick(&[0, 0, 1, 3, 16]),
        };
    }
    addresses
}

/// Makes a region a byte shorter or longer, at either end.
fn trim(rng: &mut Rng, region: &mut Region) {
    match rng.below(6) {
        0..=2 => region.end -= 1,
        3 => region.end += 1,
        4 => region.start += 1,
        _ => region.start = region.start.saturating_sub(1),
    }
}

/// One usable pair over all of them, and reserved ones over the gaps between them.
fn wide_with_gaps(rng: &mut Rng, regions: &[Region]) -> Vec<Pair> {
    let (low, high) = (regions[0].start, regions[regions.len() - 1].end);
    let mut pairs = vec![pair_of(low, high, RAM)];
    for two in regions.windows(2) {
        if two[0].end < two[1].start {
            pairs.push(pair_of(two[0].end, two[1].start, rng.pick(&RESERVED)));
        }
    }
    pairs
}

/// A window around the regions, at times a byte too small for them all or for one of them.
fn around(rng: &mut Rng, regions: &[Region]) -> Range<u64> {
    let (low, high) = (regions[0].start, regions[regions.len() - 1].end);
    let before = rng.pick(&[0, 0, 0, 1, 2, 3, 5, 100]);
    let behind = rng.pick(&[0, 0, 0, 1, 2, 3, 4, 7, 100, 1000]);
    let mut window = low.saturating_sub(before)..(high + behind).min(TOP);
    match rng.below(24) {
        0 => window.end = high - 1,
        1 => window.start = low + 1,
        2 => window.end = rng.pick(regions).end - 1,
        3..=5 => window.end = regions[regions.len() - 2].end - 1,
        6 if TOP - high < 20_000 => window.end = TOP,
        _ => {}
    }
    window
}

/// One usable pair with room for everything, and little else.
pub fn roomy(rng: &mut Rng, needs: &Needs) -> Board {
    let room = needs.room() + rng.below(1000);
    let low = origin(rng, room + 3000);
    let window = low..low + room;
    let lead = rng.pick(&[0, 0, 1, 4, 100, room / 2]);
    let base = low.saturating_sub(rng.below(2000));
    let beyond = rng.pick(&[0, 1, 500, 0x70_0000, ADDRESS_SPACE, u64::MAX - window.end]);
    let mut pairs = vec![pair_of(base, window.end + beyond, RAM)];
    if needs.pairs > 1 && rng.one_in(3) {
        let at = low + rng.below(room);
        pairs.push(Pair::new(at, rng.below(20), rng.pick(&RESERVED)));
    }
    pad(rng, &mut pairs, needs.pairs, &window);
    let load_addrs = laid(rng, needs, low + lead);
    Board { pairs, load_addrs, window }
}

/// Where a window begins: at 0, below the end of the BIOS data area, a byte below it, or there.
fn low_window(rng: &mut Rng) -> u64 {
    let inside = rng.below(BIOS_DATA_END);
    rng.pick(&[0, inside, BIOS_DATA_END - 1, BIOS_DATA_END])
}

/// Addresses for the extents, mostly around the end of the BIOS data area: from there up, from a byte
/// below, or so that the first extent ends there, where it is laid first.
fn laid_low(rng: &mut Rng, needs: &Needs) -> Vec<u64> {
    let near = rng.below(2 * BIOS_DATA_END);
    let first = match rng.below(8) {
        0..=2 => BIOS_DATA_END,
        3 | 4 => BIOS_DATA_END - 1,
        5 | 6 => BIOS_DATA_END.saturating_sub(needs.kernel[0]),
        _ => rng.pick(&[0, near]),
    };
    laid(rng, needs, first)
}

/// A window from low memory on to behind 1 MiB, with usable memory at both ends.
pub fn across_low(rng: &mut Rng, needs: &Needs) -> Board {
    let high = needs.room() + rng.below(1000);
    let mut pairs = vec![Pair::new(0, LOW_MEMORY, RAM), Pair::new(FLOOR, high, RAM)];
    let window = low_window(rng)..FLOOR + high;
    pad(rng, &mut pairs, needs.pairs, &window);
    let other = rng.pick(&[0x7C00, FLOOR]);
    let load_addrs = if rng.one_in(8) { laid(rng, needs, other) } else { laid_low(rng, needs) };
    Board { pairs, load_addrs, window }
}

/// A short window of usable low memory for the kernel alone, at times from its first address on.
pub fn low(rng: &mut Rng, needs: &Needs) -> Board {
    let load_addrs = laid_low(rng, needs);
    let lowest = load_addrs.iter().min().copied();
    let ends = load_addrs.iter().zip(&needs.kernel).map(|(start, length)| start + length);
    let end = ends.max().unwrap_or(0) + rng.below(100);
    let start = lowest.filter(|_| rng.one_in(4)).unwrap_or_else(|| low_window(rng));
    let window = start..end.max(start);
    let mut pairs = vec![Pair::new(0, end + rng.below(100), RAM)];
    pad(rng, &mut pairs, needs.pairs, &window);
    Board { pairs, load_addrs, window }
}

/// Usable memory from where the first item, placed there, ends at or a little above a multiple of
/// 1 MiB, or at most its boundary below; the kernel lies behind, and at times a gap before.
pub fn at_ceiling(rng: &mut Rng, needs: &Needs) -> Board {
    let Item { length, boundary, .. } = needs.items[0];
    let ceiling = MIB * rng.pick(&[2, 2, 3, 16, 0x800, 0xFFE]);
    let upper = (ceiling - length).next_multiple_of(boundary);
    let start = upper - rng.pick(&[0, 0, 0, boundary]);
    let first = start + length + rng.pick(&[0, 0, 16, boundary]);
    let mut window = start..first + needs.room();
    let mut pairs = vec![pair_of(start, window.end, RAM)];
    if needs.pairs > 1 && rng.one_in(3) {
        window.start -= boundary;
        pairs.push(pair_of(window.start, start - 1, RAM));
    }
    pad(rng, &mut pairs, needs.pairs, &window);
    Board { pairs, load_addrs: laid(rng, needs, first), window }
}

/// Pairs of all kinds thrown over a window, which may be empty.
pub fn scattered(rng: &mut Rng, needs: &Needs) -> Board {
    let length = match rng.below(20) {
        0 => 0,
        1 => rng.below(100),
        _ => needs.room() + rng.below(6000),
    };
    let low = origin(rng, length + 3000);
    let window = low..low + length;
    let mut pairs = vec![Pair::new(low, length, RAM)];
    while pairs.len() < needs.pairs {
        let base = (low + rng.below(length + 400)).saturating_sub(200);
        let reach = rng.pick(&[1, 16, 300, length + 1]);
        let reserved = rng.pick(&RESERVED);
        let kind = rng.pick(&[RAM, RAM, reserved]);
        pairs.push(Pair::new(base, rng.below(reach + 1), kind));
    }
    rng.shuffle(&mut pairs);
    let first = low + rng.below(length / 2 + 1);
    Board { pairs, load_addrs: laid(rng, needs, first), window }
}

/// Brings the pairs to their count: splits some and adds some far from the window, then shuffles.
fn pad(rng: &mut Rng, pairs: &mut Vec<Pair>, count: usize, window: &Range<u64>) {
    while pairs.len() < count {
        if rng.one_in(3) {
            split(rng, pairs);
        } else {
            let pair = far_pair(rng, window);
            pairs.push(pair);
        }
    }
    rng.shuffle(pairs);
}

/// Splits a pair into two that abut or overlap.
fn split(rng: &mut Rng, pairs: &mut Vec<Pair>) {
    let index = rng.below(pairs.len() as u64) as usize;
    let whole = pairs[index];
    let cut = rng.below(whole.length.max(1));
    let overlap = rng.pick(&[0, 0, 0, 1, cut / 2, cut]).min(cut);
    pairs[index].length = cut;
    pairs.push(Pair {
        base: whole.base.wrapping_add(cut - overlap),
        length: whole.length - (cut - overlap),
        ..whole
    });
}

/// A pair that is empty or lies elsewhere, but that wrapped or shortened sums may bring into the
/// window.
fn far_pair(rng: &mut Rng, window: &Range<u64>) -> Pair {
    let length = window.end.saturating_sub(window.start);
    let kind = rng.pick(&[RAM, 2, 3]);
    match rng.below(10) {
        0..=3 => Pair::new(0, low_memory(rng), RAM),
        4 => Pair::new(u64::MAX, 2, kind),
        5 => Pair::new(u64::MAX - 4095, 4096 + rng.below(window.end + 2), kind),
        6 => Pair::new(ADDRESS_SPACE + window.start, length, kind),
        7 => Pair::new(ADDRESS_SPACE - rng.below(2), rng.pick(&[0, 1, 2, ADDRESS_SPACE]), kind),
        8 => Pair::new(window.start + rng.below(length + 1), 0, kind),
        _ => Pair::new(LOW_MEMORY, FLOOR - LOW_MEMORY, 2),
    }
}

/// Lengths of low memory around whole KiB and around the limit of 640.
fn low_memory(rng: &mut Rng) -> u64 {
    match rng.below(8) {
        0..=3 => rng.below(4000),
        4 => rng.pick(&[0, 1, 1023, 1024, 1025, 2047, 2048]),
        5 => LOW_MEMORY,
        6 => rng.pick(&[0x9_FFFF, 0xA_0000, 0xA_0400]),
        _ => rng.pick(&[0xF_FFFF, 0x10_0000]),
    }
}
