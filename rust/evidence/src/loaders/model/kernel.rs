//! The header, the false headers below it, its flags and the kind of image (checks 6, 7, 25 and 8).

use super::{address_fields, check, elf, number, rule, Refused};
use crate::rules::limits::{
    ADDRESS_FIELDS, ELF_MARK, HEADER_MAGIC, PAGE_ALIGNED, SEARCH_LIMIT, SHORT_HEADER,
};
use crate::rules::offsets::header::{CHECKSUM, FLAGS};
use std::ops::Range;
use viertompu::Refusal;

/// Where the magic stands in a header.
pub(super) const MAGIC: usize = 0;
/// A header, also a false one, stands at a multiple of this.
const HEADER_BOUNDARY: u64 = 4;
/// The sum of magic, flags and checksum is a multiple of this.
pub(super) const CARRY: u64 = 1 << 32;

/// Where a part of a kernel comes from and goes to, as exact numbers.
pub struct Segment {
    pub start: u64,
    pub load_end: u64,
    pub extent_end: u64,
    /// where its load bytes begin in the image; without load bytes it may be any number
    pub offset: u64,
}

impl Segment {
    /// The addresses of load bytes and zeros.
    pub fn extent(&self) -> Range<u64> {
        self.start..self.extent_end
    }
}

/// A kernel, whatever kind of image it came from.
pub struct Kernel {
    pub header_offset: u64,
    /// how many false headers stand below the header
    pub false_headers: u64,
    /// are modules to stand on page boundaries?
    pub pages: bool,
    pub entry: u64,
    pub segments: Vec<Segment>,
}

/// Checks 6, 7, 25 and 8, then those of the kind of image up to 14.
pub fn read(image: &[u8]) -> Result<Kernel, Refused> {
    let false_headers = false_headers(image);
    let refusal = Refusal::NoHeader { false_headers: false_headers as u32 };
    let no_header = || Refused { refusal, rules: vec![rule("no header", true)] };
    let header_offset = header_offset(image).ok_or_else(no_header)?;

    let flags = word(image, header_offset, FLAGS);
    let is_set = |bit: u32| flags >> bit & 1 == 1;
    let unknown = rule("one of bits 2 to 15 set", (2..=15).any(is_set));
    check(Refusal::UnknownRequest, [unknown])?;
    let undefined = rule("one of bits 17 to 31 set", (17..=31).any(is_set));
    check(Refusal::UndefinedBits, [undefined])?;

    let announced = flags & u64::from(ADDRESS_FIELDS) != 0;
    let neither = !announced && !image.starts_with(ELF_MARK);
    check(Refusal::NoAddressFields, [rule("bit 16 clear and no ELF mark", neither)])?;

    let (entry, segments) =
        if announced { address_fields::read(image, header_offset)? } else { elf::read(image)? };
    let pages = flags & u64::from(PAGE_ALIGNED) != 0;
    Ok(Kernel { header_offset, false_headers, pages, entry, segments })
}

/// The lowest offset of a header, whether it is then refused or not.
pub fn header_offset(image: &[u8]) -> Option<u64> {
    searched().find(|&offset| is_header(image, offset))
}

/// How many offsets have a false header and lie below the header found, if there is one.
pub fn false_headers(image: &[u8]) -> u64 {
    let header = header_offset(image);
    let is_below = |offset| header.is_none_or(|header| offset < header);
    let passed_over = |&offset: &u64| is_below(offset) && false_header_at(image, offset);
    searched().filter(passed_over).count() as u64
}

/// Does a false header stand at an offset: the magic of a header, but a wrong sum?
pub fn false_header_at(image: &[u8], offset: u64) -> bool {
    has_magic(image, offset) && !adds_up(image, offset)
}

/// A field of a header at an offset; 0 where the image ends before the field does.
pub fn word(image: &[u8], offset: u64, field: usize) -> u64 {
    number(image, offset + field as u64, 4).unwrap_or(0)
}

/// All offsets of the part that is searched, whether a header may stand there or not.
pub(super) fn searched() -> Range<u64> {
    0..SEARCH_LIMIT as u64
}

/// Does a header stand at an offset?
fn is_header(image: &[u8], offset: u64) -> bool {
    has_magic(image, offset) && adds_up(image, offset)
}

/// Does the magic stand at an offset where a header may stand and has room?
pub(super) fn has_magic(image: &[u8], offset: u64) -> bool {
    let inside = image.len().min(SEARCH_LIMIT) as u64;
    offset % HEADER_BOUNDARY == 0
        && offset + SHORT_HEADER as u64 <= inside
        && word(image, offset, MAGIC) == u64::from(HEADER_MAGIC)
}

/// Do magic, flags and checksum of a header at an offset add up to 0, carries left out?
fn adds_up(image: &[u8], offset: u64) -> bool {
    let word = |field| word(image, offset, field);
    (word(MAGIC) + word(FLAGS) + word(CHECKSUM)) % CARRY == 0
}
