//! How often each goal of the images for mending was reached.

use super::Goal;
use crate::loaders::mending::Outcome;
use crate::loaders::model::header_offset;
use crate::rules::bytes::u32_at;
use crate::rules::limits::{HEADER_MAGIC, LAST_HEADER, SHORT_HEADER};
use crate::rules::offsets::header::FLAGS;
use std::collections::BTreeMap;
use std::fmt;
use viertompu::{read_mend_words, Mending, NoMagic};

#[derive(Default)]
pub struct MendCoverage {
    images: u64,
    goals: BTreeMap<&'static str, u64>,
}

impl MendCoverage {
    pub fn record(&mut self, image: &[u8], outcome: &Outcome) {
        self.images += 1;
        for (goal, reached) in goals(image, outcome) {
            *self.goals.entry(goal).or_default() += u64::from(reached);
        }
    }

    /// What came less often than once in 2,000 images.
    pub fn gaps(&self) -> Vec<String> {
        let least = self.images / 2000;
        let rare = self.goals.iter().filter(|(_, &count)| count < least);
        rare.map(|(goal, count)| format!("{goal}: {count} times, not {least}")).collect()
    }
}

impl fmt::Display for MendCoverage {
    fn fmt(&self, f: &mut fmt::Formatter) -> fmt::Result {
        writeln!(f, "{} images", self.images)?;
        self.goals.iter().try_for_each(|(goal, count)| writeln!(f, "  {goal}: {count}"))
    }
}

/// The goals of an image: whether each answer is its, and those of its answer.
fn goals(image: &[u8], outcome: &Outcome) -> Vec<Goal> {
    let magics = magic_offsets(image);
    let answer = read_mend_words(outcome.number, &outcome.words);
    let mut goals = vec![
        ("a header found", answer == Ok(Mending::HeaderFound)),
        ("mended", matches!(answer, Ok(Mending::Mended { .. }))),
        ("refused", answer == Err(NoMagic)),
    ];
    goals.extend(match answer {
        Ok(Mending::HeaderFound) => {
            let first = magics.iter().find(|&at| at % 4 == 0).map(|&at| at as u64);
            vec![("a header found behind a magic", header_offset(image) > first)]
        }
        Ok(Mending::Mended { offset, old, new }) => {
            mended_goals(image, &magics, offset as usize, [old, new])
        }
        Err(NoMagic) => refused_goals(image, &magics),
    });
    goals
}

/// The offsets at which the magic stands, whether a header may stand there or not.
fn magic_offsets(image: &[u8]) -> Vec<usize> {
    let words = image.windows(4).enumerate();
    words.filter(|(_, word)| *word == HEADER_MAGIC.to_le_bytes()).map(|(at, _)| at).collect()
}

fn mended_goals(image: &[u8], magics: &[usize], offset: usize, [old, new]: [u32; 2]) -> Vec<Goal> {
    let flags = u32_at(image, offset + FLAGS);
    let is_later = |&at: &usize| at > offset && at % 4 == 0;
    vec![
        ("mended at 0", offset == 0),
        ("mended at 8,180", offset == LAST_HEADER),
        ("mended in the image's last 12 bytes", offset + SHORT_HEADER == image.len()),
        ("mended before another magic", magics.iter().any(is_later)),
        ("mended with the magic for flags", flags == HEADER_MAGIC),
        ("mended over another magic", old == HEADER_MAGIC),
        ("mended to the magic", new == HEADER_MAGIC),
        ("mended to 0", new == 0),
        ("mended to a sum of 2^33", HEADER_MAGIC.checked_add(flags).is_none() && new != 0),
    ]
}

fn refused_goals(image: &[u8], magics: &[usize]) -> Vec<Goal> {
    let some = |test: &dyn Fn(usize) -> bool| magics.iter().any(|&at| test(at));
    let cut_off = |at: usize| at % 4 == 0 && at < LAST_HEADER;
    vec![
        ("refused without a byte", image.is_empty()),
        ("refused without the magic", !image.is_empty() && magics.is_empty()),
        ("refused with the magic in under 12 bytes", some(&|_| image.len() < SHORT_HEADER)),
        ("refused with the magic off the multiples of 4", some(&|at| at % 4 != 0)),
        ("refused with the magic cut off by the image's end", some(&cut_off)),
        ("refused with the magic at 8,184", some(&|at| at == LAST_HEADER + 4)),
    ]
}
