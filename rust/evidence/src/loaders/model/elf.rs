//! The program headers of an ELF image (checks 18 to 20, then 14).

use super::kernel::Segment;
use super::{check, number, rule, Refused};
use crate::rules::limits::{
    ELFCLASS32, ELFDATA2LSB, ELF_HEADER, EM_386, ET_EXEC, MAX_PROGRAM_HEADERS, PROGRAM_HEADER,
    PT_LOAD,
};
use crate::rules::offsets::elf_header::{
    EI_CLASS, EI_DATA, E_ENTRY, E_MACHINE, E_PHENTSIZE, E_PHNUM, E_PHOFF, E_TYPE,
};
use crate::rules::offsets::program_header::{P_FILESZ, P_MEMSZ, P_OFFSET, P_PADDR, P_TYPE};
use viertompu::Refusal;

/// Checks 18 to 20 and 14; gives the entry and the segments in table order.
pub fn read(image: &[u8]) -> Result<(u64, Vec<Segment>), Refused> {
    check(Refusal::BadElf, [rule("under 52 bytes", image.len() < ELF_HEADER)])?;
    let header = ElfHeader::new(image);
    let mut loadable = header.program_headers(image);
    loadable.retain(|program_header| program_header.p_type == u64::from(PT_LOAD));
    let in_memory = loadable.iter().filter(|program_header| program_header.p_memsz != 0);
    let segments: Vec<Segment> = in_memory.map(ProgramHeader::segment).collect();
    header.check(image, &segments)?;
    check_loadable(image, &loadable)?;
    check_segments(&segments, header.e_entry)?;
    Ok((header.e_entry, segments))
}

struct ElfHeader {
    ei_class: u64,
    ei_data: u64,
    e_type: u64,
    e_machine: u64,
    e_entry: u64,
    e_phoff: u64,
    e_phentsize: u64,
    e_phnum: u64,
}

impl ElfHeader {
    /// The header of an image of 52 bytes or more.
    fn new(image: &[u8]) -> Self {
        let field = |at: usize, width| number(image, at as u64, width).unwrap_or(0);
        ElfHeader {
            ei_class: field(EI_CLASS, 1),
            ei_data: field(EI_DATA, 1),
            e_type: field(E_TYPE, 2),
            e_machine: field(E_MACHINE, 2),
            e_entry: field(E_ENTRY, 4),
            e_phoff: field(E_PHOFF, 4),
            e_phentsize: field(E_PHENTSIZE, 2),
            e_phnum: field(E_PHNUM, 2),
        }
    }

    /// Where the table's first `k` program headers end.
    fn table_end(&self, k: u64) -> u64 {
        self.e_phoff + PROGRAM_HEADER as u64 * k
    }

    /// The program headers that lie wholly in the image, however many the table names.
    fn program_headers(&self, image: &[u8]) -> Vec<ProgramHeader> {
        (0..self.e_phnum).filter_map(|k| ProgramHeader::new(image, self.table_end(k))).collect()
    }

    /// Check 18 of an image of 52 bytes or more.
    fn check(&self, image: &[u8], segments: &[Segment]) -> Result<(), Refused> {
        let rules = [
            rule("another class", self.ei_class != u64::from(ELFCLASS32)),
            rule("another data", self.ei_data != u64::from(ELFDATA2LSB)),
            rule("another type", self.e_type != u64::from(ET_EXEC)),
            rule("another machine", self.e_machine != u64::from(EM_386)),
            rule("another entry size", self.e_phentsize != PROGRAM_HEADER as u64),
            rule("a table beyond the image", self.table_end(self.e_phnum) > image.len() as u64),
            rule("over 16 entries", self.e_phnum > MAX_PROGRAM_HEADERS as u64),
            rule("no segment", segments.is_empty()),
        ];
        check(Refusal::BadElf, rules)
    }
}

struct ProgramHeader {
    p_type: u64,
    p_offset: u64,
    p_paddr: u64,
    p_filesz: u64,
    p_memsz: u64,
}

impl ProgramHeader {
    /// The program header at an offset, if all its bytes lie in the image.
    fn new(image: &[u8], at: u64) -> Option<Self> {
        let start = usize::try_from(at).ok()?;
        let bytes = image.get(start..start.checked_add(PROGRAM_HEADER)?)?;
        let field = |offset: usize| number(bytes, offset as u64, 4);
        Some(ProgramHeader {
            p_type: field(P_TYPE)?,
            p_offset: field(P_OFFSET)?,
            p_paddr: field(P_PADDR)?,
            p_filesz: field(P_FILESZ)?,
            p_memsz: field(P_MEMSZ)?,
        })
    }

    /// File bytes first, zeros up to the memory size.
    fn segment(&self) -> Segment {
        Segment {
            start: self.p_paddr,
            load_end: self.p_paddr + self.p_filesz,
            extent_end: self.p_paddr + self.p_memsz,
            offset: self.p_offset,
        }
    }

    /// Does one of the file bytes lie outside an image? A file size of 0 has none.
    fn is_outside(&self, image: &[u8]) -> bool {
        self.p_filesz != 0 && self.p_offset + self.p_filesz > image.len() as u64
    }
}

/// Check 19, which asks every loadable header, also one of memory size 0.
fn check_loadable(image: &[u8], loadable: &[ProgramHeader]) -> Result<(), Refused> {
    let rules = [
        rule("file bytes outside the image", loadable.iter().any(|h| h.is_outside(image))),
        rule("a file size above the memory size", loadable.iter().any(|h| h.p_filesz > h.p_memsz)),
    ];
    check(Refusal::BadProgramHeader, rules)
}

/// Checks 20 and 14.
fn check_segments(segments: &[Segment], entry: u64) -> Result<(), Refused> {
    let shares_with_earlier =
        |k: usize| segments[..k].iter().any(|earlier| share(earlier, &segments[k]));
    let shared = (0..segments.len()).any(shares_with_earlier);
    check(Refusal::SegmentsOverlap, [rule("two segments that share an address", shared)])?;

    let loads = |segment: &Segment| (segment.start..segment.load_end).contains(&entry);
    let outside = !segments.iter().any(loads);
    check(Refusal::EntryOutsideLoad, [rule("an entry in no segment's load bytes", outside)])
}

/// Do two segments share an address? Neither is empty, so they do exactly if the start of one lies
/// in the other: the lowest address that both have is the start of one of them.
fn share(one: &Segment, other: &Segment) -> bool {
    one.extent().contains(&other.start) || other.extent().contains(&one.start)
}
