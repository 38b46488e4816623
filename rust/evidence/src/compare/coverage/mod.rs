//! How often each number came, and each goal of the inputs was reached.

mod bios_data;
mod board;
mod ceilings;
mod elf;
mod false_headers;
mod flags;
mod load;
mod mending;

pub use mending::MendCoverage;

use crate::input::case::Case;
use crate::loaders::model::{self, Reading, Rule};
use crate::loaders::Outcome;
use crate::rules::bytes::u32_at;
use crate::rules::limits::{MAX_LINE, MAX_MAP, MAX_MODULES, PREFIX, TABLE_ENTRY, TOP};
use crate::rules::numbers;
use crate::rules::offsets::submission;
use bios_data::BiosData;
use board::OnBoard;
use ceilings::Ceilings;
use load::Load;
use std::collections::BTreeMap;
use std::fmt;
use viertompu::{read_words, Refusal};

/// Something that inputs are made to reach, and whether this one does.
type Goal = (&'static str, bool);

#[derive(Default)]
pub struct Coverage {
    cases: u64,
    numbers: BTreeMap<u32, u64>,
    /// loads by their count of modules
    loads: BTreeMap<usize, u64>,
    /// refusals for want of room by the module's index
    items: BTreeMap<u32, u64>,
    /// how often each rule was the only one broken of its check, also 0 once its check refused
    rules: BTreeMap<(u32, &'static str), u64>,
    /// how often each goal was reached, also 0 once a case of its kind came
    goals: BTreeMap<&'static str, u64>,
}

impl Coverage {
    pub fn record(&mut self, case: &Case, outcome: &Outcome) {
        let [number, item, ..] = outcome.words;
        self.cases += 1;
        *self.numbers.entry(number).or_default() += 1;
        if number == (Refusal::NoRoomForModule { index: item }).number() {
            *self.items.entry(item).or_default() += 1;
        }
        match model::read(case) {
            Err(refused) => {
                self.record_rules(refused.refusal.number(), &refused.rules);
                self.count(border_goals(case, refused.refusal));
                self.count(ceilings::version_goals(case, refused.refusal));
                self.count(false_headers::refusal_goals(case, refused.refusal));
                self.count(flags::refusal_goals(case, refused.refusal));
                self.count(elf::refusal_goals(case, &refused));
            }
            Ok(reading) => self.record_board(case, &reading, outcome),
        }
    }

    /// Records the rules of the check that refuses.
    fn record_rules(&mut self, number: u32, rules: &[Rule]) {
        let alone = rules.iter().filter(|rule| rule.broken).count() == 1;
        for rule in rules {
            *self.rules.entry((number, rule.what)).or_default() += u64::from(alone && rule.broken);
        }
    }

    /// Records a case that passes all checks before 15.
    fn record_board(&mut self, case: &Case, reading: &Reading, outcome: &Outcome) {
        self.count(OnBoard { case, reading, outcome }.goals());
        self.count(elf::board_goals(reading, outcome));
        self.count(BiosData { reading, outcome }.goals());
        self.count(Ceilings { case, reading, outcome }.goals());
        if let Ok(plan) = &read_words(&outcome.words) {
            self.count(Load { case, reading, plan, outcome }.goals());
            self.count(elf::load_goals(reading, plan));
            self.count(false_headers::load_goals(reading, plan));
            *self.loads.entry(reading.submission.modules.len()).or_default() += 1;
        }
    }

    fn count(&mut self, goals: Vec<Goal>) {
        for (goal, reached) in goals {
            *self.goals.entry(goal).or_default() += u64::from(reached);
        }
    }

    /// What came less often than a hundred times in 200,000 cases.
    pub fn gaps(&self) -> Vec<String> {
        let least = self.cases / 2000;
        let mut gaps = Vec::new();
        let mut demand = |what: String, count: Option<&u64>| {
            let count = count.copied().unwrap_or(0);
            if count < least {
                gaps.push(format!("{what}: {count} times, not {least}"));
            }
        };
        for number in numbers() {
            demand(format!("number {number}"), self.numbers.get(&number));
        }
        for count in 0..=MAX_MODULES {
            demand(format!("load of {count} modules"), self.loads.get(&count));
        }
        for index in 0..MAX_MODULES as u32 {
            demand(format!("no room for module {index}"), self.items.get(&index));
        }
        for ((number, rule), count) in &self.rules {
            demand(format!("number {number} for {rule} alone"), Some(count));
        }
        for (goal, count) in &self.goals {
            demand(goal.to_string(), Some(count));
        }
        gaps
    }
}

impl fmt::Display for Coverage {
    fn fmt(&self, f: &mut fmt::Formatter) -> fmt::Result {
        writeln!(f, "{} cases", self.cases)?;
        for (number, count) in &self.numbers {
            writeln!(f, "  number {number:2}: {count}")?;
        }
        writeln!(f, "  loads by modules: {:?}", self.loads)?;
        writeln!(f, "  refusals 16 by item: {:?}", self.items)?;
        for ((number, rule), count) in &self.rules {
            writeln!(f, "  number {number:2} for {rule} alone: {count}")?;
        }
        for (goal, count) in &self.goals {
            writeln!(f, "  {goal}: {count}")?;
        }
        Ok(())
    }
}

/// The image of a submission whose format is in order.
fn image_of(case: &Case) -> &[u8] {
    let modules = usize::from(case.submission[submission::MODULE_COUNT]);
    let length = u32_at(&case.submission, submission::IMAGE_LENGTH) as usize;
    &case.submission[PREFIX + TABLE_ENTRY * modules..][..length]
}

/// Goals of what is lent beside the submission and refused: too much by one.
fn border_goals(case: &Case, refusal: Refusal) -> Vec<Goal> {
    match refusal {
        Refusal::BadOperatorLine => {
            vec![("operator's line of 256 bytes", case.operator.len() == MAX_LINE + 1)]
        }
        Refusal::WindowPastTop => {
            vec![("window a byte past the top", case.addresses().end == TOP + 1)]
        }
        Refusal::BadMemoryMap => {
            vec![("map of 4,097 bytes", case.map.len() == MAX_MAP + 1)]
        }
        _ => Vec::new(),
    }
}

#[cfg(test)]
mod tests {
    use super::*;
    use crate::input::bench_cases::b1;
    use crate::input::review_board;
    use crate::loaders::{run, second};

    /// The gaps left by 2,000 cases of one submission.
    fn gaps(submission: &[u8]) -> Vec<String> {
        let case = review_board::case(submission);
        let outcome = run(second::load, &case);
        let mut coverage = Coverage::default();
        (0..2000).for_each(|_| coverage.record(&case, &outcome));
        coverage.gaps()
    }

    #[test]
    fn a_rule_that_is_never_the_only_one_broken_is_a_gap() {
        let with = |at: usize, byte: u8| [&b1()[..at], &[byte], &b1()[at + 1..]].concat();
        let mark = "number 1 for another mark alone: 0 times, not 1".to_string();
        assert!(gaps(&with(3, 3)).contains(&mark));
        assert!(!gaps(&with(0, b'X')).contains(&mark));
        let both = [&b"XSB\x03"[..], &b1()[4..]].concat();
        assert!(gaps(&both).contains(&mark));
    }

    #[test]
    fn a_number_that_never_comes_is_a_gap() {
        assert!(gaps(&b1()).contains(&"number 1: 0 times, not 1".to_string()));
        assert!(!gaps(b"").contains(&"number 1: 0 times, not 1".to_string()));
    }
}
