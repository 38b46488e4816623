//! The load calculation by the header's address fields (checks 9 to 14).

use super::kernel::{word, Segment};
use super::{check, rule, Refused};
use crate::rules::limits::{FULL_HEADER, SEARCH_LIMIT};
use crate::rules::offsets::header::{
    BSS_END_ADDR, ENTRY_ADDR, HEADER_ADDR, LOAD_ADDR, LOAD_END_ADDR,
};
use viertompu::Refusal;

/// Checks 9 to 14; gives the entry and the one segment.
pub fn read(image: &[u8], header_offset: u64) -> Result<(u64, Vec<Segment>), Refused> {
    let header = Header::new(image, header_offset);
    header.check_whole()?;
    header.check_load()?;
    let segment = Segment {
        start: header.load_addr as u64,
        load_end: header.load_end() as u64,
        extent_end: header.load_end().max(header.bss_end_addr) as u64,
        offset: header.load_offset() as u64,
    };
    Ok((header.entry_addr as u64, vec![segment]))
}

/// The header found, as numbers that may be subtracted exactly.
struct Header {
    image_length: i128,
    offset: i128,
    header_addr: i128,
    load_addr: i128,
    load_end_addr: i128,
    bss_end_addr: i128,
    entry_addr: i128,
}

impl Header {
    /// Check 9 does not ask for the address fields, which may lie past the image.
    fn new(image: &[u8], offset: u64) -> Self {
        let field = |at| word(image, offset, at).into();
        Header {
            image_length: image.len() as i128,
            offset: offset.into(),
            header_addr: field(HEADER_ADDR),
            load_addr: field(LOAD_ADDR),
            load_end_addr: field(LOAD_END_ADDR),
            bss_end_addr: field(BSS_END_ADDR),
            entry_addr: field(ENTRY_ADDR),
        }
    }

    fn load_offset(&self) -> i128 {
        self.offset - (self.header_addr - self.load_addr)
    }

    fn load_length(&self) -> i128 {
        match self.load_end_addr {
            0 => self.image_length - self.load_offset(),
            load_end_addr => load_end_addr - self.load_addr,
        }
    }

    fn load_end(&self) -> i128 {
        self.load_addr + self.load_length()
    }

    /// Check 9.
    fn check_whole(&self) -> Result<(), Refused> {
        let full_end = self.offset + FULL_HEADER as i128;
        let cut_off = [
            rule("beyond 8,192 bytes", full_end > SEARCH_LIMIT as i128),
            rule("beyond the image", full_end > self.image_length),
        ];
        check(Refusal::HeaderCutOff, cut_off)
    }

    /// Checks 10 to 14.
    fn check_load(&self) -> Result<(), Refused> {
        let Header { header_addr, load_addr, load_end_addr, bss_end_addr, entry_addr, .. } = *self;
        let before = [
            rule("load_addr above header_addr", load_addr > header_addr),
            rule("a difference above the header offset", header_addr - load_addr > self.offset),
        ];
        check(Refusal::LoadBeforeImage, before)?;

        let load_end_offset = self.load_offset() + self.load_length();
        let past = [
            rule("load_end_addr below load_addr", load_end_addr != 0 && load_end_addr < load_addr),
            rule("a load beyond the image", load_end_offset > self.image_length),
        ];
        check(Refusal::LoadPastImage, past)?;

        let bss_below = bss_end_addr != 0 && bss_end_addr < self.load_end();
        check(Refusal::BssBelowLoadEnd, [rule("bss_end_addr below the load end", bss_below)])?;

        let outside = [
            rule("an entry below load_addr", entry_addr < load_addr),
            rule("an entry not below the load end", entry_addr >= self.load_end()),
        ];
        check(Refusal::EntryOutsideLoad, outside)
    }
}
