//! The load calculation by the header's address fields (checks 9 to 13).

use super::image::{ImageOffset, Program, Segment};
use crate::rules::bytes::u32_at;
use crate::rules::limits::{FULL_HEADER, SEARCH_LIMIT};
use crate::rules::offsets::header;
use viertompu::Refusal;

/// The address fields, as exact numbers.
struct AddressFields {
    header_addr: u64,
    load_addr: u64,
    load_end_addr: u64,
    bss_end_addr: u64,
    entry_addr: u32,
}

/// The one segment and the entry that the address fields state.
pub fn read(image: &[u8], header_offset: ImageOffset) -> Result<Program<'_>, Refusal> {
    let fields = AddressFields::read(image, header_offset).ok_or(Refusal::HeaderCutOff)?;
    let load_offset = load_offset(&fields, header_offset).ok_or(Refusal::LoadBeforeImage)?;
    let load_bytes = load_bytes(&fields, load_offset, image)?;
    let load_end = fields.load_addr + load_bytes.len() as u64;
    if fields.bss_end_addr != 0 && fields.bss_end_addr < load_end {
        return Err(Refusal::BssBelowLoadEnd);
    }
    let segment = Segment {
        start: fields.load_addr,
        load_end,
        extent_end: load_end.max(fields.bss_end_addr),
        load_bytes,
    };
    Ok(Program { segments: vec![segment], entry: fields.entry_addr })
}

impl AddressFields {
    /// The fields behind the flags and the checksum, or nothing where they are cut off.
    fn read(image: &[u8], header_offset: ImageOffset) -> Option<Self> {
        let searched = &image[..image.len().min(SEARCH_LIMIT)];
        let full = header_offset.bytes(searched, FULL_HEADER as u64)?;
        let field = |offset: usize| u32_at(full, offset);
        Some(AddressFields {
            header_addr: field(header::HEADER_ADDR).into(),
            load_addr: field(header::LOAD_ADDR).into(),
            load_end_addr: field(header::LOAD_END_ADDR).into(),
            bss_end_addr: field(header::BSS_END_ADDR).into(),
            entry_addr: field(header::ENTRY_ADDR),
        })
    }
}

/// Where the load begins: as far before the header as load_addr lies below header_addr.
fn load_offset(fields: &AddressFields, header_offset: ImageOffset) -> Option<ImageOffset> {
    let distance = fields.header_addr.checked_sub(fields.load_addr)?;
    header_offset.0.checked_sub(distance).map(ImageOffset)
}

/// The load bytes (check 12). Where load_end_addr is 0 they are never none: the whole header lies
/// in the image, and the load begins there or before.
fn load_bytes<'a>(
    fields: &AddressFields,
    from: ImageOffset,
    image: &'a [u8],
) -> Result<&'a [u8], Refusal> {
    if fields.load_end_addr == 0 {
        assert!(from.0 < image.len() as u64, "a byte is left to load");
        return Ok(&image[from.0 as usize..]);
    }
    let length = fields.load_end_addr.checked_sub(fields.load_addr);
    length.and_then(|length| from.bytes(image, length)).ok_or(Refusal::LoadPastImage)
}
