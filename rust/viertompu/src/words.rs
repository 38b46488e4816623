//! A decision as the words of the C interface.

use crate::{Plan, Refusal, Segment, Span};
use core::array::from_fn;

/// How many words a decision has.
///
/// 0 number, 1 item, 2 header offset, 3 entry, 4 EAX, 5 EBX, 6 and 7 the information block's
/// start and end, 8 to 55 sixteen segments (start, load end, extent end), 56 to 87 sixteen modules
/// (start, end), 88 how many false headers stand below the header, 89 to 95 zero.
pub const WORDS: usize = 96;
/// The words of a decision.
pub type Words = [u32; WORDS];

const FIRST_SEGMENT: usize = 8;
const WORDS_PER_SEGMENT: usize = 3;
const FIRST_MODULE: usize = 56;
const WORDS_PER_MODULE: usize = 2;
const FALSE_HEADERS: usize = 88;

/// What the words of a decision say.
///
/// # Panics
///
/// Where the first word is the number of no answer, which the library never writes.
pub fn read_words(words: &Words) -> Result<Plan, Refusal> {
    let [number, item, header_offset, entry, eax, ebx, start, end, ..] = *words;
    if number != 0 {
        return Err(Refusal::of_number(number, item).expect("an answer's number"));
    }
    let segment = |i: usize| {
        let at = FIRST_SEGMENT + WORDS_PER_SEGMENT * i;
        Segment { start: words[at], load_end: words[at + 1], extent_end: words[at + 2] }
    };
    let module = |i: usize| {
        let at = FIRST_MODULE + WORDS_PER_MODULE * i;
        Span { start: words[at], end: words[at + 1] }
    };
    Ok(Plan {
        header_offset,
        false_headers: words[FALSE_HEADERS],
        entry,
        eax,
        ebx,
        block: Span { start, end },
        segments: from_fn(segment),
        modules: from_fn(module),
    })
}
