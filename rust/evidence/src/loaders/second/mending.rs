//! Mending a checksum.

use super::kernel::{adds_up, magic_offsets};
use crate::rules::bytes::{put_u32, u32_at};
use crate::rules::limits::HEADER_MAGIC;
use crate::rules::offsets::header;
use crate::rules::MendAnswer;
use viertompu::{Mending, NoMagic};

/// Gives the lowest false header the right checksum, unless the image has a header.
pub fn mend(image: &mut [u8]) -> MendAnswer {
    let magics = magic_offsets(image);
    if magics.iter().any(|&at| adds_up(image, at)) {
        return Ok(Mending::HeaderFound);
    }
    let lowest = *magics.first().ok_or(NoMagic)?;
    Ok(mend_at(image, lowest))
}

/// Gives the false header at an offset the right checksum.
fn mend_at(image: &mut [u8], at: usize) -> Mending {
    let old = u32_at(image, at + header::CHECKSUM);
    let new = right_checksum(u32_at(image, at + header::FLAGS));
    put_u32(image, at + header::CHECKSUM, new);
    Mending::Mended { offset: at as u32, old, new }
}

/// The one word that gives 0 modulo 2^32 together with the magic and the flags.
fn right_checksum(flags: u32) -> u32 {
    HEADER_MAGIC.wrapping_add(flags).wrapping_neg()
}
