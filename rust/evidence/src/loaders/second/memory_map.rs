//! The memory map (check 5) and what it leaves usable.

use super::spans::{Span, SpanSet};
use crate::rules::bytes::{u32_at, u64_at};
use crate::rules::limits::{
    ADDRESS_SPACE, FLOOR, KIB, MAX_MAP, MAX_MEM_LOWER, MAX_PAIRS, MIN_PAIR_SIZE, RAM,
};
use viertompu::Refusal;

/// A pair's region, cut off at 2^32.
struct Region {
    span: Span,
    is_ram: bool,
}

/// A sound map, with its bytes as lent.
pub struct MemoryMap<'a> {
    pub bytes: &'a [u8],
    regions: Vec<Region>,
}

/// A start or an end of regions: how the counts of RAM and other regions change there.
struct Edge {
    address: u64,
    ram: i32,
    other: i32,
}

impl<'a> MemoryMap<'a> {
    pub fn read(bytes: &'a [u8]) -> Result<Self, Refusal> {
        if bytes.is_empty() || bytes.len() > MAX_MAP {
            return Err(Refusal::BadMemoryMap);
        }
        let mut regions = Vec::new();
        let mut rest = bytes;
        while !rest.is_empty() {
            let (region, behind) = read_pair(rest).ok_or(Refusal::BadMemoryMap)?;
            regions.push(region);
            rest = behind;
        }
        if regions.len() > MAX_PAIRS {
            return Err(Refusal::BadMemoryMap);
        }
        Ok(MemoryMap { bytes, regions })
    }

    /// The usable addresses, by a sweep over the edges of all regions.
    pub fn usable(&self) -> SpanSet {
        let mut edges: Vec<Edge> = self.regions.iter().flat_map(Region::edges).collect();
        edges.sort_by_key(|edge| edge.address);
        let mut set = SpanSet::default();
        let (mut ram, mut other) = (0, 0);
        let mut begun = None;
        for together in edges.chunk_by(|a, b| a.address == b.address) {
            ram += together.iter().map(|edge| edge.ram).sum::<i32>();
            other += together.iter().map(|edge| edge.other).sum::<i32>();
            let end = together[0].address;
            match begun {
                None if ram > 0 && other == 0 => begun = Some(end),
                Some(start) if ram == 0 || other > 0 => {
                    set.append(Span { start, end });
                    begun = None;
                }
                _ => {}
            }
        }
        set
    }
}

/// The first pair and the bytes behind it, or nothing where the pair is too small or cut off.
fn read_pair(bytes: &[u8]) -> Option<(Region, &[u8])> {
    let (field, behind) = bytes.split_at_checked(4)?;
    let (pair, rest) = behind.split_at_checked(u32_at(field, 0) as usize)?;
    if pair.len() < MIN_PAIR_SIZE {
        return None;
    }
    let base = u128::from(u64_at(pair, 0));
    let end = base + u128::from(u64_at(pair, 8));
    let clipped = |address: u128| address.min(u128::from(ADDRESS_SPACE)) as u64;
    let span = Span { start: clipped(base), end: clipped(end) };
    let is_ram = u32_at(pair, 16) == RAM;
    Some((Region { span, is_ram }, rest))
}

impl Region {
    fn edges(&self) -> [Edge; 2] {
        let edge = |address: u64, step: i32| Edge {
            address,
            ram: if self.is_ram { step } else { 0 },
            other: if self.is_ram { 0 } else { step },
        };
        [edge(self.span.start, 1), edge(self.span.end, -1)]
    }
}

/// mem_lower: the usable addresses in a row from 0 on, in whole KiB.
pub fn mem_lower(usable: &SpanSet) -> u64 {
    (usable.run_from(0) / KIB).min(MAX_MEM_LOWER)
}

/// mem_upper: the usable addresses in a row from 1 MiB on, in whole KiB.
pub fn mem_upper(usable: &SpanSet) -> u64 {
    usable.run_from(FLOOR) / KIB
}
