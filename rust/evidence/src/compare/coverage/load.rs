//! Goals of a load.

use super::board::is_usable;
use super::Goal;
use crate::input::case::Case;
use crate::loaders::model::{Board, Reading};
use crate::loaders::Outcome;
use crate::rules::bytes::u32_at;
use crate::rules::limits::{
    ADDRESS_FIELDS, ELF_MARK, FLOOR, FULL_HEADER, MAX_LINE, MAX_MEM_LOWER, MAX_STRING, WORD,
};
use crate::rules::offsets::{header, structure};
use viertompu::{Plan, Segment, Span};

/// Do the address fields say where the kernel goes?
pub fn has_address_fields(reading: &Reading) -> bool {
    let flags = reading.kernel.header_offset as usize + header::FLAGS;
    u32_at(reading.submission.image, flags) & ADDRESS_FIELDS != 0
}

/// A load.
pub struct Load<'a> {
    pub case: &'a Case,
    pub reading: &'a Reading<'a>,
    pub plan: &'a Plan,
    pub outcome: &'a Outcome,
}

impl Load<'_> {
    fn board(&self) -> &Board {
        &self.reading.board
    }

    /// The goals of every load, and those of the address fields where they decide.
    pub fn goals(&self) -> Vec<Goal> {
        let mut goals = self.common_goals();
        if has_address_fields(self.reading) {
            goals.extend(self.field_goals());
        }
        goals
    }

    fn field_goals(&self) -> Vec<Goal> {
        let Segment { start, load_end, .. } = self.plan.segments[0];
        let (load_end, loaded) = (u64::from(load_end), (load_end - start) as usize);
        let load_end_addr = self.header_word(header::LOAD_END_ADDR);
        let bss_end_addr = self.header_word(header::BSS_END_ADDR);
        let image = self.reading.submission.image;
        vec![
            ("loaded with load_end_addr 0", load_end_addr == 0),
            ("loaded with the header alone left", load_end_addr == 0 && loaded == FULL_HEADER),
            ("loaded with a load_end_addr", load_end_addr != 0),
            ("loaded with bss_end_addr at the load end", bss_end_addr == load_end),
            ("loaded with a bss", bss_end_addr > load_end),
            ("ELF image loaded by its address fields", image.starts_with(ELF_MARK)),
        ]
    }

    fn common_goals(&self) -> Vec<Goal> {
        let (kernel, operator) = (&self.reading.kernel, &self.case.operator);
        let first = self.case.addresses().start;
        let own_line = !self.reading.submission.line.is_empty();
        let whole = |span: &Span| self.begins_region(span) && self.ends_region(span);
        vec![
            ("loaded without a command line", self.reading.command_line.is_empty()),
            ("loaded with the submission's line", operator.is_empty() && own_line),
            ("loaded with the operator's line instead", !operator.is_empty() && own_line),
            ("loaded with an operator's line of 1 byte", operator.len() == 1),
            ("loaded with an operator's line of 255 bytes", operator.len() == MAX_LINE),
            ("loaded with a module string of 127 bytes", self.longest_string()),
            ("loaded with the kernel below 1 MiB", kernel.segments.iter().any(|s| s.start < FLOOR)),
            ("loaded with page boundaries", kernel.pages),
            ("loaded with mem_lower 640", self.mem_lower() == MAX_MEM_LOWER),
            ("loaded into a window from 0 on", first == 0),
            ("loaded into a window off a word boundary", first % WORD != 0),
            ("loaded into a window above 2 GiB", first > 1 << 31),
            ("loaded around a hole", self.behind_spans().any(|a| !self.board().open(a))),
            ("loaded around a reserved pair over a usable one", self.around_reserved()),
            ("item ends where open memory ends", self.spans().any(|s| self.ends_region(s))),
            ("item fills a region exactly", self.spans().any(whole)),
        ]
    }

    fn longest_string(&self) -> bool {
        self.reading.submission.modules.iter().any(|m| m.string.len() == MAX_STRING)
    }

    fn header_word(&self, offset: usize) -> u64 {
        let header = self.plan.header_offset as usize;
        u64::from(u32_at(self.reading.submission.image, header + offset))
    }

    fn mem_lower(&self) -> u64 {
        let block = (self.plan.block.start - self.case.first) as usize;
        u64::from(u32_at(&self.outcome.window, block + structure::MEM_LOWER))
    }

    /// The spans of the modules and of the block.
    fn spans(&self) -> impl Iterator<Item = &Span> {
        self.plan.placed_modules().iter().chain([&self.plan.block])
    }

    fn ends_region(&self, span: &Span) -> bool {
        !self.board().open(u64::from(span.end))
    }

    fn begins_region(&self, span: &Span) -> bool {
        !self.board().open(u64::from(span.start) - 1)
    }

    /// The addresses right behind kernel and items, up to where the last of them begins.
    fn behind_spans(&self) -> impl Iterator<Item = u64> {
        let extent = |segment: &Segment| Span { start: segment.start, end: segment.extent_end };
        let extents = self.plan.loaded_segments().iter().map(extent);
        let spans: Vec<Span> = self.spans().copied().chain(extents).collect();
        let last = spans.iter().map(|span| span.start).max();
        let ends = spans.into_iter().map(|span| span.end);
        ends.filter(move |&end| Some(end) < last).map(u64::from)
    }

    fn around_reserved(&self) -> bool {
        let usable = |a: u64| self.board().pairs.iter().any(|p| is_usable(p) && p.covers(a));
        self.behind_spans().any(|a| usable(a) && !self.board().open(a))
    }
}
