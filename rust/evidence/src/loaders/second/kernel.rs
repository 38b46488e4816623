//! The header, the kind of image it chooses, and the entry (checks 6, 7, 25, 8 and 14).

use super::image::{ImageOffset, Program, Segment};
use super::{address_fields, elf};
use crate::rules::bytes::u32_at;
use crate::rules::limits::{
    ADDRESS_FIELDS, ELF_MARK, HEADER_MAGIC, PAGE_ALIGNED, SEARCH_LIMIT, SHORT_HEADER,
};
use crate::rules::offsets::header;
use viertompu::Refusal;

/// Flag bits 2 to 15.
const UNKNOWN_REQUESTS: u32 = 0xFFFC;
/// Flag bits 17 to 31, which the standard leaves undefined and tells an image to keep at zero.
const UNDEFINED_BITS: u32 = 0xFFFE_0000;

/// What the header asks for, and what the image loads.
pub struct Kernel<'a> {
    pub header_offset: ImageOffset,
    pub false_headers: u32,
    pub pages: bool,
    pub segments: Vec<Segment<'a>>,
    pub entry: u32,
}

impl<'a> Kernel<'a> {
    pub fn read(image: &'a [u8]) -> Result<Self, Refusal> {
        let (header_offset, false_headers) = find_header(image)?;
        let flags = u32_at(image, header_offset.0 as usize + header::FLAGS);
        if flags & UNKNOWN_REQUESTS != 0 {
            return Err(Refusal::UnknownRequest);
        }
        // Check 25 comes before the kind of image is chosen, so it holds for both kinds.
        if flags & UNDEFINED_BITS != 0 {
            return Err(Refusal::UndefinedBits);
        }
        let Program { segments, entry } = read_program(image, header_offset, flags)?;
        let loads = |segment: &Segment| segment.load().contains(u64::from(entry));
        if !segments.iter().any(loads) {
            return Err(Refusal::EntryOutsideLoad);
        }
        let pages = flags & PAGE_ALIGNED != 0;
        Ok(Kernel { header_offset, false_headers, pages, segments, entry })
    }
}

/// The lowest offset of a header, and how many false headers stand below it (check 6).
fn find_header(image: &[u8]) -> Result<(ImageOffset, u32), Refusal> {
    let magics = magic_offsets(image);
    match magics.iter().position(|&at| adds_up(image, at)) {
        Some(below) => Ok((ImageOffset(magics[below] as u64), below as u32)),
        None => Err(Refusal::NoHeader { false_headers: magics.len() as u32 }),
    }
}

/// The offsets, in rising order, that hold the magic: each is a header's or a false header's.
pub(super) fn magic_offsets(image: &[u8]) -> Vec<usize> {
    let end = image.len().min(SEARCH_LIMIT);
    let has_room = |at: &usize| at + SHORT_HEADER <= end;
    let has_magic = |at: &usize| u32_at(image, *at) == HEADER_MAGIC;
    (0..end).step_by(4).take_while(has_room).filter(has_magic).collect()
}

/// Do the magic at an offset, the flags and the checksum give 0 modulo 2^32?
pub(super) fn adds_up(image: &[u8], at: usize) -> bool {
    let flags = u32_at(image, at + header::FLAGS);
    let checksum = u32_at(image, at + header::CHECKSUM);
    HEADER_MAGIC.wrapping_add(flags).wrapping_add(checksum) == 0
}

/// By the address fields where the flags announce them, else by ELF (check 8).
fn read_program(image: &[u8], at: ImageOffset, flags: u32) -> Result<Program<'_>, Refusal> {
    if flags & ADDRESS_FIELDS != 0 {
        address_fields::read(image, at)
    } else if image.starts_with(ELF_MARK) {
        elf::read(image)
    } else {
        Err(Refusal::NoAddressFields)
    }
}
