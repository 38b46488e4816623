//! Mending a checksum.

use super::kernel::{has_magic, header_offset, searched, word, CARRY, MAGIC};
use crate::rules::offsets::header::{CHECKSUM, FLAGS};
use crate::rules::MendAnswer;
use viertompu::{Mending, NoMagic};

/// What a mend answers for an image.
pub fn mending(image: &[u8]) -> MendAnswer {
    if header_offset(image).is_some() {
        return Ok(Mending::HeaderFound);
    }
    let offset = searched().find(|&offset| has_magic(image, offset)).ok_or(NoMagic)?;
    let old = word(image, offset, CHECKSUM);
    let new = right_checksum(image, offset);
    Ok(Mending::Mended { offset: offset as u32, old: old as u32, new: new as u32 })
}

/// The byte that stands at an offset inside an image after a mend with this answer.
pub fn byte_after(image: &[u8], answer: MendAnswer, offset: usize) -> u8 {
    new_byte(answer, offset as u64).unwrap_or(image[offset])
}

/// The one number below 2^32 with which magic, flags and checksum add up to 0, carries left out.
fn right_checksum(image: &[u8], offset: u64) -> u64 {
    let sum = word(image, offset, MAGIC) + word(image, offset, FLAGS);
    (CARRY - sum % CARRY) % CARRY
}

/// The byte of the new checksum that belongs at an offset, if one does.
fn new_byte(answer: MendAnswer, offset: u64) -> Option<u8> {
    let Ok(Mending::Mended { offset: header, new, .. }) = answer else { return None };
    let checksum = u64::from(header) + CHECKSUM as u64;
    let mut written = (checksum..).zip(new.to_le_bytes());
    written.find(|&(place, _)| place == offset).map(|(_, byte)| byte)
}
