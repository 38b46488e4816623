//! Goals of kernels of both kinds around the end of the BIOS data area.

use super::load::has_address_fields;
use super::Goal;
use crate::loaders::model::{Reading, Segment};
use crate::loaders::Outcome;
use crate::rules::limits::BIOS_DATA_END;
use viertompu::Refusal;

/// A goal of kernels by address fields, the same of ELF kernels, and whether it is reached.
type GoalOfBoth = (&'static str, &'static str, bool);

/// A kernel that passes all checks before 15.
pub struct BiosData<'a> {
    pub reading: &'a Reading<'a>,
    pub outcome: &'a Outcome,
}

impl BiosData<'_> {
    pub fn goals(&self) -> Vec<Goal> {
        let by_fields = has_address_fields(self.reading);
        let of_kind =
            |(fields, elf, reached): GoalOfBoth| (if by_fields { fields } else { elf }, reached);
        let goals = [self.refused_goals(), self.passed_goals()].concat();
        goals.into_iter().map(of_kind).collect()
    }

    fn any(&self, test: impl Fn(&Segment) -> bool) -> bool {
        self.reading.kernel.segments.iter().any(test)
    }

    fn is_refused(&self) -> bool {
        self.outcome.words[0] == Refusal::KernelNotOpen.number()
    }

    fn window_start(&self) -> u64 {
        self.reading.board.window.start
    }

    /// Is 15 given though all of the kernel is usable and in the window?
    fn is_refused_for_bios_data(&self) -> bool {
        let board = &self.reading.board;
        let there = |a: u64| board.window.contains(&a) && board.usable(a);
        self.is_refused()
            && self.any(|s| s.start < BIOS_DATA_END)
            && self.reading.kernel.segments.iter().all(|s| s.extent().all(there))
    }

    fn refused_goals(&self) -> Vec<GoalOfBoth> {
        let refused = self.is_refused_for_bios_data();
        let some = |test: fn(&Segment) -> bool| refused && self.any(test);
        let from = |first: u64| refused && self.window_start() == first;
        vec![
            (
                "kernel refused that ends at 0x500",
                "segment refused that ends at 0x500",
                some(|s| s.extent_end == BIOS_DATA_END),
            ),
            (
                "kernel refused across 0x500",
                "segment refused across 0x500",
                some(|s| s.start < BIOS_DATA_END && s.extent_end > BIOS_DATA_END),
            ),
            (
                "kernel refused at 0x4FF",
                "segment refused at 0x4FF",
                some(|s| s.start == BIOS_DATA_END - 1),
            ),
            (
                "kernel refused below 0x500 in a window from 0 on",
                "segment refused below 0x500 in a window from 0 on",
                from(0),
            ),
            (
                "kernel refused below 0x500 in a window from 0x4FF on",
                "segment refused below 0x500 in a window from 0x4FF on",
                from(BIOS_DATA_END - 1),
            ),
        ]
    }

    fn passed_goals(&self) -> Vec<GoalOfBoth> {
        let passed = !self.is_refused() && self.any(|s| s.start == BIOS_DATA_END);
        let window = |test: fn(u64) -> bool| passed && test(self.window_start());
        vec![
            (
                "kernel passed at 0x500 in a window from 0 on",
                "segment passed at 0x500 in a window from 0 on",
                window(|first| first == 0),
            ),
            (
                "kernel passed at 0x500 in a window from below 0x4FF on",
                "segment passed at 0x500 in a window from below 0x4FF on",
                window(|first| 0 < first && first < BIOS_DATA_END - 1),
            ),
            (
                "kernel passed at 0x500 in a window from 0x4FF on",
                "segment passed at 0x500 in a window from 0x4FF on",
                window(|first| first == BIOS_DATA_END - 1),
            ),
            (
                "kernel passed at 0x500 in a window from there on",
                "segment passed at 0x500 in a window from there on",
                window(|first| first == BIOS_DATA_END),
            ),
            (
                "kernel loaded at 0x500",
                "segment loaded at 0x500",
                passed && self.outcome.words[0] == 0,
            ),
        ]
    }
}
