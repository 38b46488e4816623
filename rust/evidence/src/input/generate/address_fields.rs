//! Kernels whose header gives their addresses.

use super::LONG_IMAGE;
use crate::input::draft::Header;
use crate::input::elf::Elf;
use crate::input::rng::Rng;
use crate::rules::limits::{ADDRESS_FIELDS, ELF_HEADER, FULL_HEADER, SEARCH_LIMIT};

/// The lengths and offsets of a kernel, before it has an address.
pub struct Shape {
    pub image_length: usize,
    pub header_offset: usize,
    /// how far before the header the load begins
    back: u64,
    load_length: u64,
    end_given: bool,
    bss: Option<u64>,
    entry: u64,
    /// headers of an ELF image, which say nothing here
    pub elf: Option<Elf>,
}

impl Shape {
    pub fn new(rng: &mut Rng) -> Self {
        let last = (SEARCH_LIMIT - FULL_HEADER) as u64;
        let header_offset = match rng.below(24) {
            0..=7 => 0,
            8..=20 => 4 * rng.below(16),
            21 => 4 * rng.below(500),
            22 => last,
            _ => 4 * rng.below(last / 4 + 1),
        };
        let some = rng.below(300);
        let behind = rng.pick(&[0, 0, 1, 8, some / 4, some, LONG_IMAGE as u64 - header_offset]);
        let image_length = header_offset + FULL_HEADER as u64 + behind;
        let part = rng.below(header_offset + 1);
        let back = rng.pick(&[header_offset, header_offset, 0, part]);
        let most = image_length - (header_offset - back);
        let part = 1 + rng.below(most);
        let load_length = rng.pick(&[most, most, part]);
        let within = rng.below(load_length);
        let some = rng.below(3000);
        Shape {
            image_length: image_length as usize,
            header_offset: header_offset as usize,
            back,
            load_length,
            end_given: load_length < most || rng.one_in(2),
            bss: rng.pick(&[None, None, Some(0), Some(1), Some(some / 20), Some(some)]),
            entry: rng.pick(&[0, load_length - 1, within]),
            elf: rng.one_in(8).then(|| any_elf(rng)),
        }
    }

    pub fn extents(&self) -> Vec<u64> {
        vec![self.load_length + self.bss.unwrap_or(0)]
    }

    pub fn header(&self, flags: u32, load_addr: u64) -> Header {
        let load_end = load_addr + self.load_length;
        Header {
            offset: self.header_offset,
            flags: flags | ADDRESS_FIELDS,
            header_addr: (load_addr + self.back) as u32,
            load_addr: load_addr as u32,
            load_end_addr: if self.end_given { load_end as u32 } else { 0 },
            bss_end_addr: self.bss.map_or(0, |bss| (load_end + bss) as u32),
            entry_addr: (load_addr + self.entry) as u32,
            ..Header::default()
        }
    }
}

/// Headers that a loader of ELF images may refuse.
fn any_elf(rng: &mut Rng) -> Elf {
    let count = rng.below(4);
    let table = (0..count).map(|_| super::elf::wild_header(rng, 1)).collect();
    let mut elf = Elf::new(ELF_HEADER, rng.next_u64() as u32, table);
    elf.header.ei_class = rng.pick(&[1, 1, 1, 2]);
    elf
}
