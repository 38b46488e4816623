//! Sets of addresses as sorted spans.

use crate::rules::limits::FLOOR;

/// The addresses from `start` up to but not including `end`; empty where the two are equal.
#[derive(Clone, Copy, Debug, PartialEq, Eq)]
pub struct Span {
    pub start: u64,
    pub end: u64,
}

impl Span {
    pub fn contains(self, address: u64) -> bool {
        self.start <= address && address < self.end
    }
}

/// Spans in rising order, none empty, and an address between any two of them.
#[derive(Clone, Debug, Default, PartialEq, Eq)]
pub struct SpanSet {
    spans: Vec<Span>,
}

impl SpanSet {
    /// Adds a span that begins above every address of the set.
    pub fn append(&mut self, span: Span) {
        let clear = |last: &Span| last.end < span.start;
        assert!(span.start < span.end && self.spans.last().is_none_or(clear));
        self.spans.push(span);
    }

    /// The addresses of the set that also lie in a span.
    pub fn within(&self, span: Span) -> SpanSet {
        let common = self
            .spans
            .iter()
            .map(|own| Span { start: own.start.max(span.start), end: own.end.min(span.end) });
        SpanSet { spans: common.filter(|s| s.start < s.end).collect() }
    }

    /// Takes the addresses of a span that is not empty out of the set.
    pub fn remove(&mut self, span: Span) {
        assert!(span.start < span.end);
        let below = Span { start: 0, end: span.start };
        let above = Span { start: span.end, end: u64::MAX };
        let mut left = self.within(below);
        left.spans.extend(self.within(above).spans);
        *self = left;
    }

    /// Is every address of a span that is not empty in the set?
    pub fn covers(&self, span: Span) -> bool {
        let holds = |own: &Span| own.start <= span.start && span.end <= own.end;
        self.spans.iter().any(holds)
    }

    /// How many addresses from this one on lie in the set without a break.
    pub fn run_from(&self, address: u64) -> u64 {
        let around = self.spans.iter().find(|own| own.contains(address));
        around.map_or(0, |own| own.end - address)
    }

    /// The lowest address from the floor up that meets the boundary and begins `length` addresses
    /// of the set.
    pub fn lowest_place(&self, length: u64, boundary: u64) -> Option<u64> {
        self.spans.iter().find_map(|own| {
            let start = own.start.max(FLOOR).next_multiple_of(boundary);
            (start + length <= own.end).then_some(start)
        })
    }
}
