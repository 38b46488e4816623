//! The submission (checks 1 and 2).

use super::{check, number, rule, Refused};
use crate::rules::limits::{
    MARK, MAX_LINE, MAX_MODULES, MAX_STRING, MIB, PREFIX, TABLE_ENTRY, VERSION_1, VERSION_2,
};
use crate::rules::offsets::{submission, table_entry};
use std::ops::Range;
use viertompu::Refusal;

/// The parts of a submission.
pub struct Submission<'a> {
    pub image: &'a [u8],
    pub line: &'a [u8],
    pub modules: Vec<Module<'a>>,
}

pub struct Module<'a> {
    pub data: &'a [u8],
    pub string: &'a [u8],
    /// the address at or below which it ends, if it has a ceiling
    pub ceiling: Option<u64>,
}

/// Checks 1 and 2.
pub fn read(bytes: &[u8]) -> Result<Submission<'_>, Refused> {
    let is_not = |version: u16| differs(bytes, submission::VERSION, &version.to_le_bytes());
    let identity = [
        rule("under 12 bytes", bytes.len() < PREFIX),
        rule("another mark", differs(bytes, 0, MARK)),
        rule("another version", [VERSION_1, VERSION_2].into_iter().all(is_not)),
    ];
    check(Refusal::NotASubmission, identity)?;
    let layout = Layout::new(bytes);
    layout.check_parts()?;
    let module = |k: usize| Module {
        data: layout.part(layout.data(k)),
        string: layout.part(layout.string(k)),
        ceiling: layout.entries[k].ceiling(),
    };
    Ok(Submission {
        image: layout.part(layout.image()),
        line: layout.part(layout.line()),
        modules: (0..layout.entries.len()).map(module).collect(),
    })
}

/// Does one of the bytes that are there differ from what has to stand at an offset?
fn differs(bytes: &[u8], at: usize, expected: &[u8]) -> bool {
    bytes.iter().skip(at).zip(expected).any(|(byte, due)| byte != due)
}

/// An entry of the module table; a field is `None` where the submission ends before the field does.
struct Entry {
    data_length: Option<u64>,
    string_length: Option<u64>,
    ceiling_in_mib: Option<u64>,
}

impl Entry {
    fn new(bytes: &[u8], k: usize) -> Self {
        let at = PREFIX + TABLE_ENTRY * k;
        let field = |offset, width| number(bytes, (at + offset) as u64, width);
        Entry {
            data_length: field(table_entry::DATA_LENGTH, 4),
            string_length: field(table_entry::STRING_LENGTH, 2),
            ceiling_in_mib: field(table_entry::CEILING, 2),
        }
    }

    /// The bytes of data and string together. What a cut-off table does not say counts as 0: the
    /// parts end past the submission already by the table itself.
    fn length(&self) -> u64 {
        self.data_length.unwrap_or(0) + self.string_length.unwrap_or(0)
    }

    /// The ceiling as an address; 0 is none.
    fn ceiling(&self) -> Option<u64> {
        self.ceiling_in_mib.filter(|&count| count != 0).map(|count| count * MIB)
    }
}

/// A submission of 12 bytes or more with the lengths that it states; where a part lies follows from
/// the lengths of the parts before it.
struct Layout<'a> {
    bytes: &'a [u8],
    version: u64,
    image_length: u64,
    line_length: u64,
    entries: Vec<Entry>,
}

impl<'a> Layout<'a> {
    fn new(bytes: &'a [u8]) -> Self {
        let field = |at: usize, width| number(bytes, at as u64, width).unwrap_or(0);
        let module_count = field(submission::MODULE_COUNT, 1) as usize;
        Layout {
            bytes,
            version: field(submission::VERSION, 2),
            image_length: field(submission::IMAGE_LENGTH, 4),
            line_length: field(submission::LINE_LENGTH, 2),
            entries: (0..module_count).map(|k| Entry::new(bytes, k)).collect(),
        }
    }

    fn image(&self) -> Range<u64> {
        let start = (PREFIX + TABLE_ENTRY * self.entries.len()) as u64;
        start..start + self.image_length
    }

    fn line(&self) -> Range<u64> {
        let start = self.image().end;
        start..start + self.line_length
    }

    /// Where the first `k` modules end.
    fn modules_end(&self, k: usize) -> u64 {
        self.line().end + self.entries[..k].iter().map(Entry::length).sum::<u64>()
    }

    fn data(&self, k: usize) -> Range<u64> {
        let start = self.modules_end(k);
        start..start + self.entries[k].data_length.unwrap_or(0)
    }

    fn string(&self, k: usize) -> Range<u64> {
        self.data(k).end..self.modules_end(k + 1)
    }

    /// Those bytes of a part that are there.
    fn part(&self, offsets: Range<u64>) -> &'a [u8] {
        let there = |at: u64| at.min(self.bytes.len() as u64) as usize;
        &self.bytes[there(offsets.start)..there(offsets.end)]
    }

    /// Check 2.
    fn check_parts(&self) -> Result<(), Refused> {
        let entries = || self.entries.iter();
        let over = |length: u64, most: usize| length > most as u64;
        let long_string = |entry: &Entry| entry.string_length.is_some_and(|n| over(n, MAX_STRING));
        let has_ceiling = |entry: &Entry| entry.ceiling().is_some();
        let version_1 = self.version == u64::from(VERSION_1);
        let has_zero = |offsets| self.part(offsets).contains(&0);
        let (count, length) = (self.entries.len(), self.bytes.len() as u64);
        let end = self.modules_end(count);
        let rules = [
            rule("over 16 modules", count > MAX_MODULES),
            rule("a command line over 255 bytes", over(self.line_length, MAX_LINE)),
            rule("a module without data", entries().any(|entry| entry.data_length == Some(0))),
            rule("a module string over 127 bytes", entries().any(long_string)),
            rule("a ceiling in version 1", version_1 && entries().any(has_ceiling)),
            rule("parts that end before the submission", end < length),
            rule("parts that end past the submission", end > length),
            rule("a zero byte in the command line", has_zero(self.line())),
            rule("a zero byte in a module string", (0..count).any(|k| has_zero(self.string(k)))),
        ];
        check(Refusal::BadSubmission, rules)
    }
}
