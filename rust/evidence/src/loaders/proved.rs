//! The proved library behind the same function types as the second loader.

use crate::input::case::Case;
use crate::rules::{mend_words, words};
use viertompu::{load_words, MendWords, Words, MEND_WORDS, WORDS};

/// Stands in every word before the call, so that a word left unwritten shows.
const UNWRITTEN: u32 = 0xDEAD_BEEF;

/// Loads the case, and gives the words as the library writes them.
pub fn load(case: &Case, window: &mut [u8]) -> Words {
    let Case { submission, operator, map, first, .. } = case;
    let mut words = [UNWRITTEN; WORDS];
    let number = load_words(submission, operator, map, window, *first, &mut words);
    assert_eq!(number, words[0], "the number returned is not the plan's");
    words
}

/// Loads the case, and gives the words of the plan or refusal that the crate makes of it.
pub fn load_named(case: &Case, window: &mut [u8]) -> Words {
    words(&viertompu::load(&case.submission, &case.operator, &case.map, window, case.first))
}

/// Mends the image, and gives the number and the words as the library gives them.
pub fn mend(image: &mut [u8]) -> (u32, MendWords) {
    let mut words = [UNWRITTEN; MEND_WORDS];
    let number = viertompu::mend_words(image, &mut words);
    (number, words)
}

/// Mends the image, and gives the number and the words of the answer that the crate makes of them.
pub fn mend_named(image: &mut [u8]) -> (u32, MendWords) {
    mend_words(&viertompu::mend(image))
}
