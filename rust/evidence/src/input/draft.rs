//! An input before it is turned into bytes. Nothing here is checked, so that a draft may break
//! any rule.

use crate::input::case::Case;
use crate::input::elf::Elf;
use crate::input::pair::{map_bytes, Pair};
use crate::rules::limits::{
    ADDRESS_FIELDS, FULL_HEADER, HEADER_MAGIC, MARK, SHORT_HEADER, VERSION_1, VERSION_2,
};

/// A header's place in the image and its fields.
#[derive(Clone, Debug, Default)]
pub struct Header {
    pub offset: usize,
    pub magic_off_by: u32,
    pub checksum_off_by: u32,
    pub flags: u32,
    pub header_addr: u32,
    pub load_addr: u32,
    pub load_end_addr: u32,
    pub bss_end_addr: u32,
    pub entry_addr: u32,
}

impl Header {
    /// A header in front of an image, all of which is loaded to an address and entered there.
    pub fn loading_to(start: u32, flags: u32) -> Self {
        Header {
            flags: ADDRESS_FIELDS | flags,
            header_addr: start,
            load_addr: start,
            entry_addr: start,
            ..Header::default()
        }
    }

    /// The checksum for these flags.
    pub fn checksum(flags: u32) -> u32 {
        0u32.wrapping_sub(HEADER_MAGIC).wrapping_sub(flags)
    }

    /// The header's 32 bytes.
    pub fn bytes(&self) -> Vec<u8> {
        let words = [
            HEADER_MAGIC.wrapping_add(self.magic_off_by),
            self.flags,
            Self::checksum(self.flags).wrapping_add(self.checksum_off_by),
            self.header_addr,
            self.load_addr,
            self.load_end_addr,
            self.bss_end_addr,
            self.entry_addr,
        ];
        words.iter().flat_map(|word| word.to_le_bytes()).collect()
    }
}

/// Writes bytes into an image, as far as it reaches.
pub fn overlay(image: &mut [u8], at: usize, bytes: &[u8]) {
    for (slot, &byte) in image.iter_mut().skip(at).zip(bytes) {
        *slot = byte;
    }
}

/// Bytes that hold the magic in every word.
pub fn magics(length: usize) -> Vec<u8> {
    HEADER_MAGIC.to_le_bytes().into_iter().cycle().take(length).collect()
}

#[derive(Clone, Debug, Default)]
pub struct Module {
    pub data: Vec<u8>,
    pub string: Vec<u8>,
    /// in MiB; 0 is none
    pub ceiling: u16,
}

/// The version of a submission's format.
#[derive(Clone, Copy, Debug, Default, PartialEq, Eq)]
pub enum Version {
    #[default]
    One,
    Two,
}

impl Version {
    fn number(self) -> u16 {
        match self {
            Version::One => VERSION_1,
            Version::Two => VERSION_2,
        }
    }
}

/// A submission's first five bytes.
pub fn mark_and_version(version: Version) -> Vec<u8> {
    [MARK, &version.number().to_le_bytes()].concat()
}

/// A submission's bytes.
pub fn submission(version: Version, image: &[u8], line: &[u8], modules: &[Module]) -> Vec<u8> {
    let mut bytes = mark_and_version(version);
    bytes.push(modules.len() as u8);
    bytes.extend_from_slice(&(image.len() as u32).to_le_bytes());
    bytes.extend_from_slice(&(line.len() as u16).to_le_bytes());
    for module in modules {
        bytes.extend_from_slice(&(module.data.len() as u32).to_le_bytes());
        bytes.extend_from_slice(&(module.string.len() as u16).to_le_bytes());
        bytes.extend_from_slice(&module.ceiling.to_le_bytes());
    }
    bytes.extend_from_slice(image);
    bytes.extend_from_slice(line);
    for module in modules {
        bytes.extend_from_slice(&module.data);
        bytes.extend_from_slice(&module.string);
    }
    bytes
}

/// A submission, its lines and its board.
#[derive(Clone, Debug, Default)]
pub struct Draft {
    pub version: Version,
    /// the image's bytes where no header stands
    pub filler: Vec<u8>,
    pub header: Header,
    /// the headers of an ELF image, if it is one
    pub elf: Option<Elf>,
    /// offsets of a magic with a wrong sum, or of one that is not at a multiple of 4
    pub decoys: Vec<usize>,
    pub modules: Vec<Module>,
    pub line: Vec<u8>,
    pub operator: Vec<u8>,
    pub pairs: Vec<Pair>,
    pub first: u32,
    pub window: usize,
    /// where the pattern of the window's bytes begins
    pub pattern: usize,
}

impl Draft {
    /// Is it an ELF image that its header gives no address fields for?
    pub fn is_elf(&self) -> bool {
        self.elf.is_some() && self.header.flags & ADDRESS_FIELDS == 0
    }

    /// The filler under decoys, program headers, ELF header and header, each over those before it.
    fn image(&self) -> Vec<u8> {
        let mut image = self.filler.clone();
        for &offset in &self.decoys {
            let decoy = Header { checksum_off_by: u32::from(offset % 4 == 0), ..Header::default() };
            overlay(&mut image, offset, &decoy.bytes()[..SHORT_HEADER]);
        }
        if let Some(elf) = &self.elf {
            overlay(&mut image, elf.header.e_phoff as usize, &elf.table_bytes());
            overlay(&mut image, 0, &elf.header.bytes());
        }
        let announced = self.header.flags & ADDRESS_FIELDS != 0;
        let length = if announced { FULL_HEADER } else { SHORT_HEADER };
        overlay(&mut image, self.header.offset, &self.header.bytes()[..length]);
        image
    }

    pub fn case(&self, name: String) -> Case {
        Case {
            name,
            submission: submission(self.version, &self.image(), &self.line, &self.modules),
            operator: self.operator.clone(),
            map: map_bytes(&self.pairs),
            window: pattern(self.pattern, self.window),
            first: self.first,
        }
    }
}

/// Bytes that hold no zero and do not repeat within 255.
pub fn pattern(from: usize, length: usize) -> Vec<u8> {
    let from = from % 255;
    let cycle: Vec<u8> = (1..=255).collect();
    let mut bytes = cycle.repeat((from + length).div_ceil(255));
    bytes.truncate(from + length);
    bytes.split_off(from)
}
