//! The load calculation by ELF's program headers (checks 18 to 20).

use super::image::{ImageOffset, Program, Segment};
use super::spans::Span;
use crate::rules::bytes::{u16_at, u32_at};
use crate::rules::limits::{
    ELFCLASS32, ELFDATA2LSB, ELF_HEADER, EM_386, ET_EXEC, MAX_PROGRAM_HEADERS, PROGRAM_HEADER,
    PT_LOAD,
};
use crate::rules::offsets::{elf_header, program_header};
use viertompu::Refusal;

/// A program header, as exact numbers.
struct ProgramHeader {
    p_type: u32,
    p_offset: ImageOffset,
    p_paddr: u64,
    p_filesz: u64,
    p_memsz: u64,
}

/// The segments and the entry of an image that begins with the ELF mark.
pub fn read(image: &[u8]) -> Result<Program<'_>, Refusal> {
    let loadable = loadable_headers(image).ok_or(Refusal::BadElf)?;
    let read: Option<Vec<_>> = loadable.iter().map(|header| header.segment(image)).collect();
    let mut segments = read.ok_or(Refusal::BadProgramHeader)?;
    segments.retain(|segment| segment.start < segment.extent_end);
    if share_an_address(segments.iter().map(Segment::extent).collect()) {
        return Err(Refusal::SegmentsOverlap);
    }
    Ok(Program { segments, entry: u32_at(image, elf_header::E_ENTRY) })
}

/// The loadable program headers in table order, or nothing where check 18 refuses the image.
fn loadable_headers(image: &[u8]) -> Option<Vec<ProgramHeader>> {
    let headers = table(image)?.chunks_exact(PROGRAM_HEADER).map(ProgramHeader::read);
    let loadable: Vec<_> = headers.filter(|header| header.p_type == PT_LOAD).collect();
    loadable.iter().any(|header| header.p_memsz != 0).then_some(loadable)
}

/// The program header table, or nothing where the image has none that can be read.
fn table(image: &[u8]) -> Option<&[u8]> {
    if !is_executable(image) {
        return None;
    }
    let e_phoff = ImageOffset(u32_at(image, elf_header::E_PHOFF).into());
    let e_phnum = usize::from(u16_at(image, elf_header::E_PHNUM));
    if e_phnum > MAX_PROGRAM_HEADERS {
        return None;
    }
    e_phoff.bytes(image, (PROGRAM_HEADER * e_phnum) as u64)
}

/// Is the ELF header whole, and that of a 32-bit little-endian executable for the 80386?
fn is_executable(image: &[u8]) -> bool {
    image.len() >= ELF_HEADER
        && image[elf_header::EI_CLASS] == ELFCLASS32
        && image[elf_header::EI_DATA] == ELFDATA2LSB
        && u16_at(image, elf_header::E_TYPE) == ET_EXEC
        && u16_at(image, elf_header::E_MACHINE) == EM_386
        && usize::from(u16_at(image, elf_header::E_PHENTSIZE)) == PROGRAM_HEADER
}

impl ProgramHeader {
    fn read(bytes: &[u8]) -> Self {
        let field = |offset: usize| u32_at(bytes, offset);
        ProgramHeader {
            p_type: field(program_header::P_TYPE),
            p_offset: ImageOffset(field(program_header::P_OFFSET).into()),
            p_paddr: field(program_header::P_PADDR).into(),
            p_filesz: field(program_header::P_FILESZ).into(),
            p_memsz: field(program_header::P_MEMSZ).into(),
        }
    }

    /// What a loadable header asks for, or nothing where check 19 refuses it.
    fn segment<'a>(&self, image: &'a [u8]) -> Option<Segment<'a>> {
        let load_bytes = self.file_bytes(image)?;
        (self.p_filesz <= self.p_memsz).then_some(Segment {
            start: self.p_paddr,
            load_end: self.p_paddr + self.p_filesz,
            extent_end: self.p_paddr + self.p_memsz,
            load_bytes,
        })
    }

    /// The file bytes; where there are none, the offset may be anything.
    fn file_bytes<'a>(&self, image: &'a [u8]) -> Option<&'a [u8]> {
        match self.p_filesz {
            0 => Some(&[]),
            p_filesz => self.p_offset.bytes(image, p_filesz),
        }
    }
}

/// Do two of the spans, none of them empty, share an address?
fn share_an_address(mut spans: Vec<Span>) -> bool {
    spans.sort_by_key(|span| span.start);
    spans.windows(2).any(|two| two[1].start < two[0].end)
}
