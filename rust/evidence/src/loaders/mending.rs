//! Menders: they mend the checksum of an image in place.

use super::{model, proved, second};
use crate::rules::mend_words;
use viertompu::MendWords;

/// A mender: it gives the number and the words of its answer.
pub type Mender = fn(&mut [u8]) -> (u32, MendWords);

/// What a mender left behind.
#[derive(Clone, Debug, PartialEq, Eq)]
pub struct Outcome {
    pub number: u32,
    pub words: MendWords,
    pub image: Vec<u8>,
}

/// Runs a mender on a copy of the image.
pub fn run(mender: Mender, image: &[u8]) -> Outcome {
    let mut image = image.to_vec();
    let (number, words) = mender(&mut image);
    Outcome { number, words, image }
}

/// The second loader's reading of the rule.
pub fn by_second(image: &mut [u8]) -> (u32, MendWords) {
    mend_words(&second::mend(image))
}

/// The model's, which says for each byte what stands there afterwards.
pub fn by_model(image: &mut [u8]) -> (u32, MendWords) {
    let before = image.to_vec();
    let answer = model::mending(&before);
    for (offset, byte) in image.iter_mut().enumerate() {
        *byte = model::byte_after(&before, answer, offset);
    }
    mend_words(&answer)
}

/// The menders held against the second one.
pub const OTHERS: [(&str, Mender); 3] =
    [("model", by_model), ("proved", proved::mend), ("proved, named", proved::mend_named)];
