//! Goals of the board: the window, the map, and what they refuse.

use super::Goal;
use crate::input::case::Case;
use crate::input::pair::{map_bytes, Pair};
use crate::loaders::model::Reading;
use crate::loaders::{run, second, Outcome};
use crate::rules::limits::{ADDRESS_SPACE, FLOOR, MAX_MAP, MAX_PAIRS, MIN_PAIR_SIZE, RAM, TOP};
use std::ops::Range;

/// A case whose kernel meets the board: one that passes all checks before 15.
pub struct OnBoard<'a> {
    pub case: &'a Case,
    pub reading: &'a Reading<'a>,
    pub outcome: &'a Outcome,
}

impl OnBoard<'_> {
    fn pairs(&self) -> &[Pair] {
        &self.reading.board.pairs
    }

    pub fn goals(&self) -> Vec<Goal> {
        let Range { start: first, end } = self.case.addresses();
        let segments = &self.reading.kernel.segments;
        let inside = segments.iter().all(|s| first <= s.start && s.extent_end <= end);
        let load_end = |test: fn(&u64) -> bool| segments.iter().any(|s| test(&s.load_end));
        let number = self.outcome.words[0];
        vec![
            ("window empty", first == end),
            ("window below 1 MiB", first < end && end <= FLOOR),
            ("window below 1 MiB from 0 on", first == 0 && first < end && end <= FLOOR),
            ("window across 1 MiB", first < FLOOR && end > FLOOR),
            ("window begins at 1 MiB", first == FLOOR),
            ("window begins above 1 MiB", first > FLOOR),
            ("window ends at the top", first < end && end == TOP),
            ("window longer than 64 KiB", end - first > 65_536),
            ("map of 32 pairs", self.pairs().len() == MAX_PAIRS),
            ("map of 4,096 bytes", self.case.map.len() == MAX_MAP),
            ("pair of a size above 20", self.pair(|p| p.size as usize > MIN_PAIR_SIZE)),
            ("pair across 2^32", self.pair(|p| p.base < ADDRESS_SPACE && p.end() > 1 << 32)),
            ("pair across 2^64", self.pair(|p| p.end() > 1 << 64)),
            ("pair in the window by the low half of its base", self.base_cut_into_window()),
            ("pair in the window by a wrapped end", self.end_wrapped_into_window()),
            ("usable pairs that abut", self.usable_two(|a, b| a.end() == b.base.into())),
            ("usable pairs that overlap", self.usable_two(overlap)),
            ("reserved pair over a usable one", self.reserved_over_usable()),
            ("load end at 2^32", load_end(|&end| end == ADDRESS_SPACE)),
            ("load end past 2^32", load_end(|&end| end > ADDRESS_SPACE)),
            ("kernel refused outside the window", number == 15 && !inside),
            ("kernel refused inside the window", number == 15 && inside),
            ("module refused for want of one byte", number == 16 && self.one_byte_short()),
            ("block refused for want of one byte", number == 17 && self.one_byte_short()),
        ]
    }

    fn pair(&self, test: fn(&Pair) -> bool) -> bool {
        self.pairs().iter().any(test)
    }

    /// Does a test hold of two usable pairs?
    fn usable_two(&self, test: fn(&Pair, &Pair) -> bool) -> bool {
        let usable = || self.pairs().iter().enumerate().filter(|(_, p)| is_usable(p));
        usable().any(|(i, a)| usable().any(|(j, b)| i != j && test(a, b)))
    }

    fn reserved_over_usable(&self) -> bool {
        let reserved = |p: &&Pair| p.kind != RAM && p.length > 0;
        let usable = || self.pairs().iter().filter(|p| is_usable(p));
        self.pairs().iter().filter(reserved).any(|r| usable().any(|u| overlap(u, r)))
    }

    fn base_cut_into_window(&self) -> bool {
        let cut = |p: &Pair| self.case.addresses().contains(&(p.base % ADDRESS_SPACE));
        self.pairs().iter().any(|p| p.base >= ADDRESS_SPACE && p.length > 0 && cut(p))
    }

    fn end_wrapped_into_window(&self) -> bool {
        let wrapped = |p: &Pair| p.base.wrapping_add(p.length);
        self.pairs().iter().any(|p| p.end() > 1 << 64 && wrapped(p) > self.case.first.into())
    }

    /// Does the answer change once each usable pair and the window, if it may, end a byte later?
    fn one_byte_short(&self) -> bool {
        let mut longer = self.pairs().to_vec();
        for pair in longer.iter_mut().filter(|pair| pair.kind == RAM) {
            pair.length = pair.length.saturating_add(1);
        }
        let mut more = Case { map: map_bytes(&longer), ..self.case.clone() };
        if more.addresses().end < TOP {
            more.window.push(1);
        }
        run(second::load, &more).words[..2] != self.outcome.words[..2]
    }
}

pub fn is_usable(pair: &Pair) -> bool {
    pair.kind == RAM && pair.length > 0
}

fn overlap(a: &Pair, b: &Pair) -> bool {
    u128::from(a.base) < b.end() && u128::from(b.base) < a.end()
}
