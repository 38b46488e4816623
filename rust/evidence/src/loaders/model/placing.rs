//! Usable, open and placing (checks 15 to 17), decided by asking every address in turn.

use crate::input::pair::Pair;
use crate::rules::limits::{ADDRESS_SPACE, BIOS_DATA_END, FLOOR, KIB, MAX_MEM_LOWER, RAM};
use crate::rules::Item;
use std::ops::Range;
use viertompu::Refusal;

/// A map and the addresses of a window.
pub struct Board {
    pub pairs: Vec<Pair>,
    pub window: Range<u64>,
}

impl Board {
    /// About how many times a pair is asked about an address in all questions together.
    pub fn cost(&self) -> u128 {
        let ram = self.pairs.iter().filter(|pair| pair.kind == RAM);
        let longest = u128::from(ADDRESS_SPACE);
        let walk: u128 = ram.map(|pair| longest.min(pair.length.into())).sum();
        let window = u128::from(self.window.end - self.window.start);
        (walk + window) * self.pairs.len() as u128
    }

    pub fn usable(&self, address: u64) -> bool {
        let covers = |pair: &Pair| pair.covers(address);
        let mut ram = self.pairs.iter().filter(|pair| pair.kind == RAM);
        let mut other = self.pairs.iter().filter(|pair| pair.kind != RAM);
        address < ADDRESS_SPACE && ram.any(covers) && !other.any(covers)
    }

    pub fn open(&self, address: u64) -> bool {
        self.window.contains(&address) && address >= BIOS_DATA_END && self.usable(address)
    }

    /// mem_lower and mem_upper.
    pub fn memory_sizes(&self) -> (u64, u64) {
        let run = |from: u64| (from..).take_while(|&a| self.usable(a)).count() as u64;
        ((run(0) / KIB).min(MAX_MEM_LOWER), run(FLOOR) / KIB)
    }

    /// The starts of the modules and of the block, or the refusal from 15 on that applies.
    pub fn place(
        &self,
        extents: &[Range<u64>],
        modules: &[Item],
        block: Item,
    ) -> Result<Vec<u64>, Refusal> {
        if !extents.iter().cloned().flatten().all(|a| self.open(a)) {
            return Err(Refusal::KernelNotOpen);
        }
        let in_kernel = |a: u64| extents.iter().any(|extent| extent.contains(&a));
        let unused = |a: u64| self.open(a) && !in_kernel(a);
        let mut free: Vec<bool> = self.window.clone().map(unused).collect();
        let mut starts = Vec::new();
        for (index, &module) in modules.iter().enumerate() {
            let refusal = Refusal::NoRoomForModule { index: index as u32 };
            starts.push(self.take(&mut free, module).ok_or(refusal)?);
        }
        starts.push(self.take(&mut free, block).ok_or(Refusal::NoRoomForBlock)?);
        Ok(starts)
    }

    /// Tries every address of the window; `free` has one entry for each.
    fn take(&self, free: &mut [bool], item: Item) -> Option<u64> {
        let first = self.window.start;
        let is_free = |a: u64| self.window.contains(&a) && free[(a - first) as usize];
        let on_boundary = |a: u64| a % item.boundary == 0;
        let under_ceiling = |a: u64| item.ceiling.is_none_or(|c| a + item.length <= c);
        let all_free = |a: u64| (a..a + item.length).all(is_free);
        let fits = |&a: &u64| a >= FLOOR && on_boundary(a) && under_ceiling(a) && all_free(a);
        let start = self.window.clone().find(fits)?;
        for address in start..start + item.length {
            free[(address - first) as usize] = false;
        }
        Some(start)
    }
}
