//! The headers of an ELF image as they stand in it. Nothing here is judged.

use crate::rules::bytes::{u16_at, u32_at};
use crate::rules::limits::{ELF_HEADER, PROGRAM_HEADER, PT_LOAD};
use crate::rules::offsets::{elf_header, program_header};
use std::ops::Range;

/// The fields of an ELF header that lead to segments, and the program headers.
pub struct Elf {
    pub e_entry: u64,
    pub e_phoff: u64,
    pub e_phnum: u64,
    /// the program headers that lie in the image
    pub table: Vec<ProgramHeader>,
}

/// The fields of a program header, as exact numbers.
pub struct ProgramHeader {
    pub p_type: u64,
    pub p_offset: u64,
    pub p_vaddr: u64,
    pub p_paddr: u64,
    pub p_filesz: u64,
    pub p_memsz: u64,
}

impl Elf {
    /// The headers of an image, if it is long enough for an ELF header.
    pub fn read(image: &[u8]) -> Option<Self> {
        let header = image.get(..ELF_HEADER)?;
        let e_phoff = u32_at(header, elf_header::E_PHOFF);
        let e_phnum = u16_at(header, elf_header::E_PHNUM);
        let table = image.get(e_phoff as usize..).unwrap_or(&[]).chunks_exact(PROGRAM_HEADER);
        Some(Elf {
            e_entry: u32_at(header, elf_header::E_ENTRY).into(),
            e_phoff: e_phoff.into(),
            e_phnum: e_phnum.into(),
            table: table.take(e_phnum.into()).map(ProgramHeader::new).collect(),
        })
    }

    /// Where the table lies in the image, or would lie.
    pub fn table_place(&self) -> Range<u64> {
        self.e_phoff..self.e_phoff + PROGRAM_HEADER as u64 * self.e_phnum
    }

    pub fn loadable(&self) -> impl Iterator<Item = &ProgramHeader> {
        self.table.iter().filter(|header| header.p_type == u64::from(PT_LOAD))
    }

    /// The segments in table order.
    pub fn segments(&self) -> impl Iterator<Item = &ProgramHeader> {
        self.loadable().filter(|header| header.p_memsz > 0)
    }
}

impl ProgramHeader {
    fn new(bytes: &[u8]) -> Self {
        let field = |offset| u64::from(u32_at(bytes, offset));
        ProgramHeader {
            p_type: field(program_header::P_TYPE),
            p_offset: field(program_header::P_OFFSET),
            p_vaddr: field(program_header::P_VADDR),
            p_paddr: field(program_header::P_PADDR),
            p_filesz: field(program_header::P_FILESZ),
            p_memsz: field(program_header::P_MEMSZ),
        }
    }

    /// Where the file bytes stand in the image.
    pub fn file_place(&self) -> Range<u64> {
        self.p_offset..self.p_offset + self.p_filesz
    }

    /// The addresses of the file bytes.
    pub fn load(&self) -> Range<u64> {
        self.p_paddr..self.p_paddr + self.p_filesz
    }

    /// The addresses of file bytes and zeros.
    pub fn extent(&self) -> Range<u64> {
        self.p_paddr..self.p_paddr + self.p_memsz
    }
}
