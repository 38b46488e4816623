//! Goals of versions and of modules under ceilings.

use super::Goal;
use crate::input::case::Case;
use crate::loaders::model::{Module, Reading};
use crate::loaders::{run, second, Outcome};
use crate::rules::bytes::u16_at;
use crate::rules::limits::{
    ADDRESS_SPACE, FLOOR, MARK, MIB, PREFIX, TABLE_ENTRY, VERSION_1, VERSION_2,
};
use crate::rules::offsets::{submission, table_entry};
use viertompu::{read_words, Plan, Refusal, Span};

/// The goals of a submission whose version is refused.
pub fn version_goals(case: &Case, refusal: Refusal) -> Vec<Goal> {
    let marked = case.submission.len() >= PREFIX && case.submission.starts_with(MARK);
    if refusal != Refusal::NotASubmission || !marked {
        return Vec::new();
    }
    let is = |number: u16| version(case) == number;
    vec![
        ("version 0 refused", is(0)),
        ("version 3 refused", is(3)),
        ("version 257 refused", is(0x0101)),
        ("version 258 refused", is(0x0102)),
    ]
}

fn version(case: &Case) -> u16 {
    u16_at(&case.submission, submission::VERSION)
}

/// A case that passes all checks before 15.
pub struct Ceilings<'a> {
    pub case: &'a Case,
    pub reading: &'a Reading<'a>,
    pub outcome: &'a Outcome,
}

impl Ceilings<'_> {
    pub fn goals(&self) -> Vec<Goal> {
        match read_words(&self.outcome.words) {
            Ok(plan) => self.load_goals(&plan),
            Err(Refusal::NoRoomForModule { index }) => self.refused_goals(index as usize),
            Err(_) => Vec::new(),
        }
    }

    fn modules(&self) -> &[Module<'_>] {
        &self.reading.submission.modules
    }

    fn load_goals(&self, plan: &Plan) -> Vec<Goal> {
        let version = version(self.case);
        let pages = self.reading.kernel.pages;
        let ceilings: Vec<u64> = self.modules().iter().filter_map(|m| m.ceiling).collect();
        let some = !self.modules().is_empty();
        let under = |test: fn(u64) -> bool| ceilings.iter().any(|&ceiling| test(ceiling));
        let last = self.modules().last().and_then(|module| module.ceiling);
        let block = u64::from(plan.block.end);
        vec![
            ("loaded modules in version 1", some && version == VERSION_1),
            (
                "loaded modules in version 2 without a ceiling",
                some && version == VERSION_2 && ceilings.is_empty(),
            ),
            ("loaded modules with a ceiling and without", self.mixed(ceilings.len())),
            ("module on a word up to its ceiling", !pages && self.up_to_ceiling(plan)),
            ("module on a page up to its ceiling", pages && self.up_to_ceiling(plan)),
            ("loaded under a ceiling of 2 MiB", under(|ceiling| ceiling == 2 * MIB)),
            ("loaded under a ceiling of 4,096 MiB", under(|ceiling| ceiling == ADDRESS_SPACE)),
            ("loaded under a ceiling of 65,535 MiB", under(|ceiling| ceiling == 65_535 * MIB)),
            ("block ends above the last module's ceiling", last.is_some_and(|c| block > c)),
            ("module ends above an earlier one's ceiling", self.above_an_earlier(plan)),
        ]
    }

    /// Have `with` of the modules, some and not all, a ceiling?
    fn mixed(&self, with: usize) -> bool {
        0 < with && with < self.modules().len()
    }

    /// The modules that have a ceiling, by index, with their spans and ceilings.
    fn limited<'p>(&self, plan: &'p Plan) -> Vec<(usize, &'p Span, u64)> {
        let modules = self.modules().iter().zip(&plan.modules).enumerate();
        modules.filter_map(|(i, (m, span))| m.ceiling.map(|c| (i, span, c))).collect()
    }

    fn up_to_ceiling(&self, plan: &Plan) -> bool {
        self.limited(plan).iter().any(|(_, span, ceiling)| u64::from(span.end) == *ceiling)
    }

    fn above_an_earlier(&self, plan: &Plan) -> bool {
        let above = |i: usize, ceiling: u64| {
            plan.placed_modules()[i..].iter().any(|later| u64::from(later.end) > ceiling)
        };
        self.limited(plan).iter().any(|&(i, _, ceiling)| above(i + 1, ceiling))
    }

    /// The goals of a refusal for want of room for a module.
    fn refused_goals(&self, index: usize) -> Vec<Goal> {
        let ceiling = self.modules()[index].ceiling;
        let freed = run(second::load, &self.without_ceiling(index));
        let alone = ceiling.is_some() && freed.words[..2] != self.outcome.words[..2];
        let place = read_words(&freed.words).ok().map(|plan| plan.modules[index]);
        let would = |test: &dyn Fn(u64, u64, u64) -> bool| {
            let place = place.filter(|_| alone).zip(ceiling);
            place.is_some_and(|(span, ceiling)| test(span.start.into(), span.end.into(), ceiling))
        };
        let pages = self.reading.kernel.pages;
        let behind_none = index > 0 && self.modules()[index - 1].ceiling.is_none();
        vec![
            ("module without a ceiling refused", ceiling.is_none()),
            ("module on a word refused for its ceiling alone", alone && !pages),
            ("module on a page refused for its ceiling alone", alone && pages),
            ("module refused a byte past its ceiling", would(&|_, end, c| end == c + 1)),
            ("module refused across its ceiling", would(&|start, _, c| start < c)),
            ("module refused at its ceiling", would(&|start, _, c| start == c)),
            ("module refused above its ceiling", would(&|start, _, c| start > c)),
            (
                "module refused past a gap too short",
                would(&|start, _, _| self.has_free_below(start)),
            ),
            ("module refused under a ceiling of 1 MiB", alone && ceiling == Some(MIB)),
            ("module refused for its ceiling behind one without", alone && behind_none),
        ]
    }

    /// Is there an address below this one, from the floor up, that is open and not the kernel's?
    fn has_free_below(&self, address: u64) -> bool {
        let Reading { board, kernel, .. } = self.reading;
        let taken = |a: &u64| kernel.segments.iter().any(|segment| segment.extent().contains(a));
        (board.window.start.max(FLOOR)..address).any(|a| board.open(a) && !taken(&a))
    }

    /// The case with no ceiling for a module.
    fn without_ceiling(&self, index: usize) -> Case {
        let mut case = self.case.clone();
        let entry = PREFIX + TABLE_ENTRY * index;
        case.submission[entry + table_entry::CEILING..][..2].fill(0);
        case
    }
}
