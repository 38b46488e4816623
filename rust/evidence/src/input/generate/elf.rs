//! Kernels of ELF images.

use super::LONG_IMAGE;
use crate::input::draft::Header;
use crate::input::elf::{Elf, ProgramHeader};
use crate::input::rng::Rng;
use crate::rules::limits::{
    ELF_HEADER, LAST_HEADER, MAX_PROGRAM_HEADERS, PROGRAM_HEADER, PT_LOAD, SHORT_HEADER,
};

/// Types of program headers that are not loadable.
const OTHER_TYPES: [u32; 8] = [0, 2, 3, 4, 6, 0x101, 0x6474_E551, 0x8000_0001];
/// Where a header can stand whose first word is the ELF header's last: no field there counts.
const OVER_THE_END: usize = ELF_HEADER - 4;

/// The lengths and offsets of an ELF kernel, before it has addresses.
pub struct Shape {
    pub image_length: usize,
    pub header_offset: usize,
    e_phoff: usize,
    /// the program headers, their segments without addresses
    table: Vec<ProgramHeader>,
    /// the entry: the index of a program header and how far behind its start
    entry: (usize, u64),
    /// what is added to physical addresses to give virtual ones
    virtual_by: u32,
}

impl Shape {
    pub fn new(rng: &mut Rng) -> Self {
        let kinds = kinds(rng);
        let layout = Layout::new(rng, &kinds);
        let longest = if kinds.len() > 5 { 60 } else { rng.pick(&[40, 300, 300, 2000]) };
        let mut table: Vec<ProgramHeader> = kinds
            .iter()
            .map(|kind| match kind {
                Kind::Segment => segment(rng, layout.image_length as u64, longest),
                Kind::Empty => ProgramHeader { p_filesz: 0, ..wild_header(rng, PT_LOAD) },
                Kind::Other => {
                    let p_type = rng.pick(&OTHER_TYPES);
                    wild_header(rng, p_type)
                }
            })
            .collect();
        let entry = entry(rng, &mut table);
        Shape {
            image_length: layout.image_length,
            header_offset: layout.header_offset,
            e_phoff: layout.e_phoff,
            table,
            entry,
            virtual_by: rng.pick(&[0, 0, 0xC000_0000, 0x1000, 0u32.wrapping_sub(0x1000)]),
        }
    }

    /// The memory sizes of the segments in table order.
    pub fn extents(&self) -> Vec<u64> {
        let segments = self.table.iter().filter(|header| header.is_segment());
        segments.map(|header| u64::from(header.p_memsz)).collect()
    }

    pub fn header(&self, flags: u32) -> Header {
        Header { offset: self.header_offset, flags, ..Header::default() }
    }

    /// The headers of the image, its segments at these addresses.
    pub fn elf(&self, load_addrs: &[u64]) -> Elf {
        let mut elf = Elf::new(self.e_phoff, 0, self.table.clone());
        let segments = elf.table.iter_mut().filter(|header| header.is_segment());
        for (segment, &address) in segments.zip(load_addrs) {
            segment.p_paddr = address as u32;
            segment.p_vaddr = segment.p_paddr.wrapping_add(self.virtual_by);
        }
        let (index, behind) = self.entry;
        elf.header.e_entry = elf.table[index].p_paddr.wrapping_add(behind as u32);
        // A table at 20 would begin with this field, and one at 48 with the last two.
        elf.header.e_version = if self.e_phoff == 20 { 0 } else { 1 };
        if self.e_phoff == ELF_HEADER - 4 {
            elf.header.e_shnum = elf.table[0].p_type as u16;
            elf.header.e_shstrndx = (elf.table[0].p_type >> 16) as u16;
        }
        elf
    }
}

/// What a program header is.
#[derive(Clone, Copy, PartialEq, Eq)]
enum Kind {
    Segment,
    /// loadable, of memory size 0
    Empty,
    Other,
}

/// The program headers of a table, one segment among them at least.
fn kinds(rng: &mut Rng) -> Vec<Kind> {
    let most = MAX_PROGRAM_HEADERS as u64;
    let count = match rng.below(12) {
        0 | 1 => 1,
        2 => most,
        3 => rng.range(1, most),
        _ => rng.range(2, 5),
    };
    let plain = rng.one_in(3);
    let mut kind = || match rng.below(6) {
        0 if !plain => Kind::Empty,
        1 if !plain => Kind::Other,
        _ => Kind::Segment,
    };
    let mut kinds: Vec<Kind> = (0..count).map(|_| kind()).collect();
    let index = rng.below(count) as usize;
    kinds[index] = Kind::Segment;
    kinds
}

/// A segment with file bytes somewhere in the image, or with none.
fn segment(rng: &mut Rng, image_length: u64, longest: u64) -> ProgramHeader {
    let memsz = rng.range(1, longest);
    let most = memsz.min(image_length);
    let part = rng.range(1, most);
    let filesz = rng.pick(&[most, most, part, part, part, 0]);
    let last = image_length - filesz;
    let offset = rng.below(last + 1);
    let offset = match filesz {
        0 => rng.pick(&[0, offset, image_length + 1, u32::MAX.into()]),
        _ => rng.pick(&[0, last, offset, offset]),
    };
    ProgramHeader::load(offset as u32, 0, filesz as u32, memsz as u32)
}

/// A program header of a type, with numbers of all kinds; of memory size 0 if it is loadable.
pub fn wild_header(rng: &mut Rng, p_type: u32) -> ProgramHeader {
    let mut number = || {
        let (any, small) = (rng.next_u64() as u32, rng.below(300) as u32);
        rng.pick(&[0, small, any, 0x10_0000 + small, u32::MAX])
    };
    ProgramHeader {
        p_type,
        p_offset: number(),
        p_vaddr: number(),
        p_paddr: number(),
        p_filesz: number(),
        p_memsz: if p_type == PT_LOAD { 0 } else { number() },
        p_flags: number(),
        p_align: number(),
    }
}

/// An entry in the file bytes of a segment, which gets some where none has any.
fn entry(rng: &mut Rng, table: &mut [ProgramHeader]) -> (usize, u64) {
    let segments = || (0..table.len()).filter(|&index| table[index].is_segment());
    let loaded: Vec<usize> = segments().filter(|&index| table[index].p_filesz > 0).collect();
    let index = match &loaded[..] {
        [] => segments().next().expect("a segment"),
        loaded => rng.pick(loaded),
    };
    let header = &mut table[index];
    if header.p_filesz == 0 {
        (header.p_filesz, header.p_offset) = (1, 0);
    }
    let length = u64::from(header.p_filesz);
    let within = rng.below(length);
    (index, rng.pick(&[0, length - 1, within]))
}

/// Where table and header lie in the image.
struct Layout {
    image_length: usize,
    header_offset: usize,
    e_phoff: usize,
}

impl Layout {
    fn new(rng: &mut Rng, kinds: &[Kind]) -> Self {
        let table = PROGRAM_HEADER * kinds.len();
        let room = ELF_HEADER + 4 * rng.below(8) as usize;
        let lead = rng.pick(&[0, 0, 1, 2, 3, 4, 7]);
        let behind = |e_phoff: usize| (e_phoff + table).next_multiple_of(4);
        let (header_offset, e_phoff) = match rng.below(12) {
            0..=3 => (behind(ELF_HEADER + lead), ELF_HEADER + lead),
            4 | 5 => (room, room + SHORT_HEADER + lead),
            6 => (OVER_THE_END, OVER_THE_END + SHORT_HEADER + lead),
            7 => in_table(rng, kinds).unwrap_or((room, room + SHORT_HEADER)),
            8 => {
                let e_phoff = over_elf_header(rng, kinds);
                (behind(ELF_HEADER), e_phoff)
            }
            9 if rng.one_in(3) => (LAST_HEADER, ELF_HEADER),
            _ => return Layout::table_last(rng, room, table),
        };
        let least = (header_offset + SHORT_HEADER).max(e_phoff + table).max(ELF_HEADER);
        Layout { image_length: least + body(rng, least), header_offset, e_phoff }
    }

    /// The table at the image's very end.
    fn table_last(rng: &mut Rng, header_offset: usize, table: usize) -> Self {
        let least = header_offset + SHORT_HEADER;
        let e_phoff = least + body(rng, least);
        Layout { image_length: e_phoff + table, header_offset, e_phoff }
    }
}

/// Bytes behind headers and table.
fn body(rng: &mut Rng, least: usize) -> usize {
    let some = rng.below(300) as usize;
    match rng.below(40) {
        0 => LONG_IMAGE.saturating_sub(least),
        _ => rng.pick(&[0, 0, 1, 8, some / 4, some]),
    }
}

/// A header that stands in a program header of another type, if there is one, and the table.
fn in_table(rng: &mut Rng, kinds: &[Kind]) -> Option<(usize, usize)> {
    let index = kinds.iter().position(|&kind| kind == Kind::Other)?;
    let within = 4 * rng.below(6) as usize;
    Some((ELF_HEADER + PROGRAM_HEADER * index + within, ELF_HEADER))
}

/// A table that begins in the ELF header: by its last four bytes, or by as many program headers of
/// another type as lie in it.
fn over_elf_header(rng: &mut Rng, kinds: &[Kind]) -> usize {
    let others = kinds.iter().take_while(|&&kind| kind == Kind::Other).count();
    if others == 0 {
        return ELF_HEADER - 4;
    }
    let lowest = ELF_HEADER.saturating_sub(PROGRAM_HEADER * others);
    rng.range(lowest as u64, ELF_HEADER as u64 - 1) as usize
}
