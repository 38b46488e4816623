//! Reading a submission (checks 1 and 2).

use crate::rules::bytes::{u16_at, u32_at};
use crate::rules::limits::{
    MARK, MAX_LINE, MAX_MODULES, MAX_STRING, MIB, PREFIX, TABLE_ENTRY, VERSION_1, VERSION_2,
};
use crate::rules::offsets::{submission, table_entry};
use viertompu::Refusal;

/// A submission's parts, each a part of the lent bytes.
pub struct Submission<'a> {
    pub image: &'a [u8],
    pub line: &'a [u8],
    pub modules: Vec<Module<'a>>,
}

pub struct Module<'a> {
    pub data: &'a [u8],
    pub string: &'a [u8],
    /// the address at or below which it ends, if it has a ceiling
    pub ceiling: Option<u64>,
}

impl<'a> Submission<'a> {
    pub fn read(bytes: &'a [u8]) -> Result<Self, Refusal> {
        if bytes.len() < PREFIX
            || !bytes.starts_with(MARK)
            || !matches!(u16_at(bytes, submission::VERSION), VERSION_1 | VERSION_2)
        {
            return Err(Refusal::NotASubmission);
        }
        Self::read_parts(bytes).ok_or(Refusal::BadSubmission)
    }

    /// The parts, or nothing where a rule of the format is broken.
    fn read_parts(bytes: &'a [u8]) -> Option<Self> {
        let (prefix, mut rest) = bytes.split_at(PREFIX);
        let version = u16_at(prefix, submission::VERSION);
        let count = usize::from(prefix[submission::MODULE_COUNT]);
        let image_length = u32_at(prefix, submission::IMAGE_LENGTH) as usize;
        let line_length = usize::from(u16_at(prefix, submission::LINE_LENGTH));
        if count > MAX_MODULES || line_length > MAX_LINE {
            return None;
        }
        let table = cut(&mut rest, count * TABLE_ENTRY)?;
        let image = cut(&mut rest, image_length)?;
        let line = cut_text(&mut rest, line_length)?;
        let entries = table.chunks_exact(TABLE_ENTRY);
        let modules: Option<Vec<_>> = entries.map(|entry| cut_module(&mut rest, entry)).collect();
        let modules = modules?;
        // Version 1 has no ceilings.
        if version == VERSION_1 && modules.iter().any(|module| module.ceiling.is_some()) {
            return None;
        }
        rest.is_empty().then_some(Submission { image, line, modules })
    }
}

/// Takes bytes off the front, or nothing where too few are left.
fn cut<'a>(rest: &mut &'a [u8], length: usize) -> Option<&'a [u8]> {
    let (part, behind) = rest.split_at_checked(length)?;
    *rest = behind;
    Some(part)
}

/// Takes a text off the front; it holds no zero byte.
fn cut_text<'a>(rest: &mut &'a [u8], length: usize) -> Option<&'a [u8]> {
    cut(rest, length).filter(|text| !text.contains(&0))
}

/// Takes a module's data and string off the front, as its table entry says.
fn cut_module<'a>(rest: &mut &'a [u8], entry: &[u8]) -> Option<Module<'a>> {
    let data_length = u32_at(entry, table_entry::DATA_LENGTH) as usize;
    let string_length = usize::from(u16_at(entry, table_entry::STRING_LENGTH));
    if data_length == 0 || string_length > MAX_STRING {
        return None;
    }
    let data = cut(rest, data_length)?;
    let string = cut_text(rest, string_length)?;
    Some(Module { data, string, ceiling: ceiling(entry) })
}

/// A module's ceiling as an address; 0 MiB is none.
fn ceiling(entry: &[u8]) -> Option<u64> {
    match u16_at(entry, table_entry::CEILING) {
        0 => None,
        mib => Some(u64::from(mib) * MIB),
    }
}
