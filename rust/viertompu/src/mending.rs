//! Mending a checksum.

use core::error::Error;
use core::fmt;

/// How many words a mend reports.
///
/// 0 whether it mended (1 or 0), 1 the header's offset, 2 the old checksum, 3 the new one; all are 0
/// where it did not mend.
pub const MEND_WORDS: usize = 4;
/// The words of a mend.
pub type MendWords = [u32; MEND_WORDS];

/// What a mend found or did.
#[derive(Clone, Copy, Debug, PartialEq, Eq)]
pub enum Mending {
    /// the image has a header, and nothing was changed
    HeaderFound,
    /// the header at this offset has a new checksum
    Mended { offset: u32, old: u32, new: u32 },
}

/// 26: the image has neither a header nor a false header. It displays as its sentence.
#[derive(Clone, Copy, Debug, PartialEq, Eq)]
pub struct NoMagic;

impl NoMagic {
    /// The number of the refusal.
    pub const NUMBER: u32 = 26;
    /// The sentence of the refusal.
    pub const REASON: &'static str = "the image has neither a header nor a false header";
}

impl fmt::Display for NoMagic {
    fn fmt(&self, f: &mut fmt::Formatter) -> fmt::Result {
        f.write_str(NoMagic::REASON)
    }
}

impl Error for NoMagic {}

/// What the number and the words of a mend say.
///
/// # Panics
///
/// Where the library never gives such a number or first word.
pub fn read_mend_words(number: u32, words: &MendWords) -> Result<Mending, NoMagic> {
    match (number, *words) {
        (0, [0, ..]) => Ok(Mending::HeaderFound),
        (0, [1, offset, old, new]) => Ok(Mending::Mended { offset, old, new }),
        (NoMagic::NUMBER, _) => Err(NoMagic),
        _ => panic!("no mend gives {number} {words:?}"),
    }
}
