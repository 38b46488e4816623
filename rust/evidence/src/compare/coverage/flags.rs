//! Goals of the header's flags.

use super::{image_of, Goal};
use crate::input::case::Case;
use crate::loaders::model::header_offset;
use crate::rules::bytes::u32_at;
use crate::rules::limits::{ADDRESS_FIELDS, ELF_HEADER, ELF_MARK, HEADER_MAGIC, SHORT_HEADER};
use crate::rules::offsets::header;
use viertompu::Refusal;

/// The goals of a refusal by the flags.
pub fn refusal_goals(case: &Case, refusal: Refusal) -> Vec<Goal> {
    match refusal {
        Refusal::UnknownRequest => {
            let header = Header::find(image_of(case));
            vec![("undefined bits behind an unknown request", header.undefined() != 0)]
        }
        Refusal::UndefinedBits => undefined_goals(image_of(case)),
        _ => Vec::new(),
    }
}

/// Where the header of an image stands, and its words.
struct Header {
    offset: usize,
    flags: u32,
    checksum: u32,
}

impl Header {
    /// The header of an image that has one.
    fn find(image: &[u8]) -> Self {
        let offset = header_offset(image).expect("a header") as usize;
        let word = |at: usize| u32_at(image, offset + at);
        Header { offset, flags: word(header::FLAGS), checksum: word(header::CHECKSUM) }
    }

    /// Flag bits 17 to 31, from bit 0 on.
    fn undefined(&self) -> u32 {
        self.flags >> 17
    }

    fn sum(&self) -> u64 {
        u64::from(HEADER_MAGIC) + u64::from(self.flags) + u64::from(self.checksum)
    }
}

fn undefined_goals(image: &[u8]) -> Vec<Goal> {
    let header = Header::find(image);
    let has_fields = header.flags & ADDRESS_FIELDS != 0;
    let is_elf = image.starts_with(ELF_MARK);
    let in_elf_header = is_elf && header.offset + SHORT_HEADER <= ELF_HEADER;
    vec![
        ("undefined bit 17 alone", header.undefined() == 1),
        ("undefined bit 31 alone", header.undefined() == 1 << 14),
        ("undefined bits, all of them", header.undefined() == 0x7FFF),
        ("undefined bits and a header sum of 2^32", header.sum() == 1 << 32),
        ("undefined bits and a header sum of 2^33", header.sum() == 1 << 33),
        ("undefined bits and address fields", has_fields),
        ("undefined bits in an ELF image", !has_fields && is_elf),
        ("undefined bits where 8 would follow", !has_fields && !is_elf),
        ("undefined bits of a header in the ELF header", in_elf_header),
    ]
}
