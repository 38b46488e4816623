//! An ELF image's headers before they are bytes. Nothing here is checked.

use crate::rules::limits::{
    ELFCLASS32, ELFDATA2LSB, ELF_HEADER, ELF_MARK, EM_386, ET_EXEC, PROGRAM_HEADER, PT_LOAD,
};

/// The fields of an ELF header.
#[derive(Clone, Debug)]
pub struct ElfHeader {
    pub mark: [u8; 4],
    pub ei_class: u8,
    pub ei_data: u8,
    pub e_type: u16,
    pub e_machine: u16,
    pub e_version: u32,
    pub e_entry: u32,
    pub e_phoff: u32,
    pub e_shoff: u32,
    pub e_flags: u32,
    pub e_ehsize: u16,
    pub e_phentsize: u16,
    pub e_phnum: u16,
    pub e_shentsize: u16,
    pub e_shnum: u16,
    pub e_shstrndx: u16,
}

impl Default for ElfHeader {
    /// An executable for the 80386 without a table.
    fn default() -> Self {
        ElfHeader {
            mark: ELF_MARK.try_into().expect("four bytes"),
            ei_class: ELFCLASS32,
            ei_data: ELFDATA2LSB,
            e_type: ET_EXEC,
            e_machine: EM_386,
            e_version: 1,
            e_entry: 0,
            e_phoff: 0,
            e_shoff: 0,
            e_flags: 0,
            e_ehsize: ELF_HEADER as u16,
            e_phentsize: PROGRAM_HEADER as u16,
            e_phnum: 0,
            e_shentsize: 0,
            e_shnum: 0,
            e_shstrndx: 0,
        }
    }
}

impl ElfHeader {
    /// The header's 52 bytes.
    pub fn bytes(&self) -> Vec<u8> {
        let version_and_padding = [1, 0, 0, 0, 0, 0, 0, 0, 0, 0];
        let words = [self.e_version, self.e_entry, self.e_phoff, self.e_shoff, self.e_flags];
        let sizes = [
            self.e_ehsize,
            self.e_phentsize,
            self.e_phnum,
            self.e_shentsize,
            self.e_shnum,
            self.e_shstrndx,
        ];
        [
            &self.mark[..],
            &[self.ei_class, self.ei_data],
            &version_and_padding,
            &halves(&[self.e_type, self.e_machine]),
            &words_of(&words),
            &halves(&sizes),
        ]
        .concat()
    }
}

/// The fields of a program header.
#[derive(Clone, Copy, Debug, Default, PartialEq, Eq)]
pub struct ProgramHeader {
    pub p_type: u32,
    pub p_offset: u32,
    pub p_vaddr: u32,
    pub p_paddr: u32,
    pub p_filesz: u32,
    pub p_memsz: u32,
    pub p_flags: u32,
    pub p_align: u32,
}

impl ProgramHeader {
    /// A loadable header whose virtual address is the physical one.
    pub fn load(p_offset: u32, p_paddr: u32, p_filesz: u32, p_memsz: u32) -> Self {
        let (p_type, p_vaddr) = (PT_LOAD, p_paddr);
        let (p_flags, p_align) = (7, 1);
        ProgramHeader { p_type, p_offset, p_vaddr, p_paddr, p_filesz, p_memsz, p_flags, p_align }
    }

    /// Is it one that goes into memory?
    pub fn is_segment(&self) -> bool {
        self.p_type == PT_LOAD && self.p_memsz != 0
    }

    /// The header's 32 bytes.
    pub fn bytes(&self) -> Vec<u8> {
        words_of(&[
            self.p_type,
            self.p_offset,
            self.p_vaddr,
            self.p_paddr,
            self.p_filesz,
            self.p_memsz,
            self.p_flags,
            self.p_align,
        ])
    }
}

/// The headers of an ELF image. How many program headers the ELF header tells is its own matter.
#[derive(Clone, Debug, Default)]
pub struct Elf {
    pub header: ElfHeader,
    pub table: Vec<ProgramHeader>,
}

impl Elf {
    /// A table at an offset, and a header that tells of it.
    pub fn new(e_phoff: usize, e_entry: u32, table: Vec<ProgramHeader>) -> Self {
        let (e_phoff, e_phnum) = (e_phoff as u32, table.len() as u16);
        Elf { header: ElfHeader { e_phoff, e_entry, e_phnum, ..ElfHeader::default() }, table }
    }

    /// The table's bytes.
    pub fn table_bytes(&self) -> Vec<u8> {
        self.table.iter().flat_map(ProgramHeader::bytes).collect()
    }
}

fn halves(numbers: &[u16]) -> Vec<u8> {
    numbers.iter().flat_map(|number| number.to_le_bytes()).collect()
}

fn words_of(numbers: &[u32]) -> Vec<u8> {
    numbers.iter().flat_map(|number| number.to_le_bytes()).collect()
}
