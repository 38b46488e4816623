//! The rules as they are said, one after the other and one address at a time.
//!
//! Each check is a list of rules, and refuses where one of them is broken. Placing asks every
//! address in turn: exact for every board, but quick only for small ones.

mod address_fields;
mod elf;
mod kernel;
mod memory_map;
mod mending;
mod placing;
mod submission;

pub use kernel::{false_header_at, false_headers, header_offset, Kernel, Segment};
pub use mending::{byte_after, mending};
pub use placing::Board;
pub use submission::{Module, Submission};

use crate::input::case::Case;
use crate::rules::limits::{LOADER_NAME, MAX_LINE, MODULE_ENTRY, PAGE, STRUCTURE, TOP, WORD};
use crate::rules::Item;
use std::ops::Range;
use viertompu::Refusal;

/// A rule of a check, in a few words, and whether the case breaks it.
pub struct Rule {
    pub what: &'static str,
    pub broken: bool,
}

/// The check before 15 that refuses a case, with all its rules.
pub struct Refused {
    pub refusal: Refusal,
    pub rules: Vec<Rule>,
}

/// What stands in a case that passes all checks before 15.
pub struct Reading<'a> {
    pub submission: Submission<'a>,
    /// the command line in force
    pub command_line: &'a [u8],
    pub board: Board,
    pub kernel: Kernel,
}

/// The checks before 15: 1 to 7, 25 and 8, then 9 to 13 or 18 to 20 by the kind of image, then 14.
pub fn read(case: &Case) -> Result<Reading<'_>, Refused> {
    let submission = submission::read(&case.submission)?;
    let operator = case.operator.as_slice();
    let operator_rules = [
        rule("over 255 bytes", operator.len() > MAX_LINE),
        rule("a zero byte", operator.contains(&0)),
    ];
    check(Refusal::BadOperatorLine, operator_rules)?;
    let window = case.addresses();
    check(Refusal::WindowPastTop, [rule("a window past the top", window.end > TOP)])?;
    let pairs = memory_map::read(&case.map)?;
    let kernel = kernel::read(submission.image)?;
    let command_line = if operator.is_empty() { submission.line } else { operator };
    Ok(Reading { submission, command_line, board: Board { pairs, window }, kernel })
}

impl Reading<'_> {
    /// Checks 15 to 17: the starts of the modules and of the block, or the refusal that applies.
    pub fn place(&self) -> Result<Vec<u64>, Refusal> {
        let boundary = if self.kernel.pages { PAGE } else { WORD };
        let item = |module: &Module| {
            let length = module.data.len() as u64;
            Item { length, boundary, ceiling: module.ceiling }
        };
        let modules: Vec<Item> = self.submission.modules.iter().map(item).collect();
        let block = Item { length: self.block_length(), boundary: WORD, ceiling: None };
        let extents: Vec<Range<u64>> = self.kernel.segments.iter().map(Segment::extent).collect();
        self.board.place(&extents, &modules, block)
    }

    /// The count of the information block's bytes, part after part.
    fn block_length(&self) -> u64 {
        let modules = &self.submission.modules;
        let entries = MODULE_ENTRY * modules.len() as u64;
        let map = memory_map::length(&self.board.pairs);
        let texts = text_length(LOADER_NAME) + text_length(self.command_line);
        let strings: u64 = modules.iter().map(|module| text_length(module.string)).sum();
        STRUCTURE + entries + map + texts + strings
    }
}

/// The bytes of a text in the information block: itself and a zero, or none where it is empty.
fn text_length(text: &[u8]) -> u64 {
    if text.is_empty() {
        0
    } else {
        text.len() as u64 + 1
    }
}

fn rule(what: &'static str, broken: bool) -> Rule {
    Rule { what, broken }
}

/// Refuses where one of a check's rules is broken.
fn check<const N: usize>(refusal: Refusal, rules: [Rule; N]) -> Result<(), Refused> {
    if rules.iter().any(|rule| rule.broken) {
        return Err(Refused { refusal, rules: Vec::from(rules) });
    }
    Ok(())
}

/// The little-endian number of up to 8 bytes at an offset, if all its bytes are there.
fn number(bytes: &[u8], at: u64, width: usize) -> Option<u64> {
    let start = usize::try_from(at).ok()?;
    let field = bytes.get(start..start.checked_add(width)?)?;
    Some(field.iter().rev().fold(0, |above, &byte| 256 * above + u64::from(byte)))
}
