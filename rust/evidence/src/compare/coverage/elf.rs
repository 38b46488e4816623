//! Goals of ELF images.

use super::load::has_address_fields;
use super::{image_of, Goal};
use crate::compare::elf::{Elf, ProgramHeader};
use crate::input::bench_cases::shortest_elf;
use crate::input::case::Case;
use crate::loaders::model::{Board, Reading, Refused};
use crate::loaders::Outcome;
use crate::rules::limits::{
    ADDRESS_SPACE, ELF_HEADER, ELF_MARK, FLOOR, FULL_HEADER, MAX_PROGRAM_HEADERS, PAGE,
    SEARCH_LIMIT, SHORT_HEADER, WORD,
};
use std::ops::Range;
use viertompu::{Plan, Refusal, Span};

/// What the model says of an entry in an ELF image that lies outside.
const ENTRY_OF_ELF: &str = "an entry in no segment's load bytes";

/// The goals of a refusal before 15.
pub fn refusal_goals(case: &Case, refused: &Refused) -> Vec<Goal> {
    match refused.refusal {
        Refusal::NoAddressFields => {
            vec![("mark wrong in its last byte alone", last_byte_wrong(image_of(case)))]
        }
        Refusal::BadElf => bad_elf_goals(image_of(case)),
        Refusal::BadProgramHeader => bad_header_goals(image_of(case)),
        Refusal::SegmentsOverlap => overlap_goals(image_of(case)),
        Refusal::EntryOutsideLoad if refused.rules[0].what == ENTRY_OF_ELF => {
            entry_goals(image_of(case))
        }
        _ => Vec::new(),
    }
}

fn last_byte_wrong(image: &[u8]) -> bool {
    let (mark, last) = ELF_MARK.split_at(ELF_MARK.len() - 1);
    image.strip_prefix(mark).is_some_and(|rest| !rest.starts_with(last))
}

/// Do two ranges share a number?
fn share(a: &Range<u64>, b: &Range<u64>) -> bool {
    a.start.max(b.start) < a.end.min(b.end)
}

fn bad_elf_goals(image: &[u8]) -> Vec<Goal> {
    let Some(elf) = Elf::read(image) else {
        return vec![("ELF image of 51 bytes", image.len() == ELF_HEADER - 1)];
    };
    let (length, end) = (image.len() as u64, elf.table_place().end);
    let inside = end <= length;
    let none = inside && elf.segments().next().is_none();
    let empty = none && elf.loadable().next().is_some();
    let others = none && elf.e_phnum > 0 && elf.loadable().next().is_none();
    vec![
        ("table of 17 program headers", inside && elf.e_phnum == MAX_PROGRAM_HEADERS as u64 + 1),
        ("table of over 17 program headers", inside && elf.e_phnum > 17),
        ("table of no program header", inside && elf.e_phnum == 0),
        ("table a byte past the image", end == length + 1),
        ("table in the image by a wrapped end", end % ADDRESS_SPACE <= length && !inside),
        ("no segment but a loadable header of memory size 0", empty),
        ("no segment but headers of other types", others),
    ]
}

fn bad_header_goals(image: &[u8]) -> Vec<Goal> {
    let Some(elf) = Elf::read(image) else { return Vec::new() };
    let length = image.len() as u64;
    let with_bytes = |test: &dyn Fn(&ProgramHeader) -> bool| {
        elf.loadable().filter(|header| header.p_filesz > 0).any(test)
    };
    let wrapped = |end: u64| end > length && end % ADDRESS_SPACE <= length;
    vec![
        ("file bytes a byte past the image", with_bytes(&|h| h.file_place().end == length + 1)),
        ("file bytes in the image by a wrapped end", with_bytes(&|h| wrapped(h.file_place().end))),
        ("file size one above the memory size", with_bytes(&|h| h.p_filesz == h.p_memsz + 1)),
        ("file bytes and a memory size of 0", with_bytes(&|h| h.p_memsz == 0)),
        ("bad program header behind a good segment", later_header_bad(&elf, length)),
    ]
}

/// Is the first segment in order, so that a later header is not?
fn later_header_bad(elf: &Elf, length: u64) -> bool {
    let good = |h: &ProgramHeader| {
        h.p_filesz > 0 && h.p_filesz <= h.p_memsz && h.file_place().end <= length
    };
    elf.loadable().next().is_some_and(good)
}

fn overlap_goals(image: &[u8]) -> Vec<Goal> {
    let Some(elf) = Elf::read(image) else { return Vec::new() };
    let segments: Vec<&ProgramHeader> = elf.segments().collect();
    let extent = |index: usize| segments[index].extent();
    let pairs = (0..segments.len()).flat_map(|b| (0..b).map(move |a| (a, b)));
    let sharing: Vec<(usize, usize)> =
        pairs.filter(|&(a, b)| share(&extent(a), &extent(b))).collect();
    let shared = |a: usize, b: usize| {
        extent(a).end.min(extent(b).end) - extent(a).start.max(extent(b).start)
    };
    let one_byte = sharing.len() == 1 && sharing.iter().all(|&(a, b)| shared(a, b) == 1);
    let between = |a: usize, b: usize| {
        let starts = extent(a).start.min(extent(b).start)..extent(a).start.max(extent(b).start);
        segments.iter().any(|s| s.p_paddr > starts.start && starts.contains(&s.p_paddr))
    };
    let zeros = |a: usize, b: usize| {
        !share(&segments[a].load(), &extent(b)) && !share(&extent(a), &segments[b].load())
    };
    vec![
        ("segments that share one byte", one_byte),
        ("segments that share, none next in the table", sharing.iter().all(|&(a, b)| b - a > 1)),
        ("segments that share, others between", sharing.iter().any(|&(a, b)| between(a, b))),
        ("segments that share zeros alone", sharing.iter().all(|&(a, b)| zeros(a, b))),
        (
            "segments that share their start",
            sharing.iter().any(|&(a, b)| extent(a).start == extent(b).start),
        ),
    ]
}

fn entry_goals(image: &[u8]) -> Vec<Goal> {
    let Some(elf) = Elf::read(image) else { return Vec::new() };
    let entry = elf.e_entry;
    let any = |test: &dyn Fn(&ProgramHeader) -> bool| elf.segments().any(test);
    let extent_end = |h: &ProgramHeader| h.extent().end;
    let in_zeros = any(&|h| (h.load().end..extent_end(h)).contains(&entry));
    let between =
        !in_zeros && any(&|h| extent_end(h) <= entry) && any(&|h| h.extent().start > entry);
    let is_virtual = |h: &ProgramHeader| {
        h.p_vaddr != h.p_paddr && (h.p_vaddr..h.p_vaddr + h.p_filesz).contains(&entry)
    };
    vec![
        ("entry right behind file bytes", any(&|h| h.p_filesz > 0 && h.load().end == entry)),
        ("entry in the zeros of a segment", in_zeros),
        ("entry at the end of a segment", any(&|h| extent_end(h) == entry)),
        ("entry between segments", between),
        ("entry right below a segment", any(&|h| h.extent().start == entry + 1)),
        ("entry by virtual addresses alone", any(&is_virtual)),
    ]
}

/// The headers of a kernel that they say the place of.
fn elf_of(reading: &Reading) -> Option<Elf> {
    let image = reading.submission.image;
    Elf::read(image).filter(|_| !has_address_fields(reading))
}

/// The goals of an ELF image that passes all checks before 15.
pub fn board_goals(reading: &Reading, outcome: &Outcome) -> Vec<Goal> {
    let Some(elf) = elf_of(reading) else { return Vec::new() };
    let refused = outcome.words[0] == Refusal::KernelNotOpen.number();
    let open = |h: &ProgramHeader| h.extent().all(|address| reading.board.open(address));
    let end = |test: fn(u64) -> bool| refused && elf.segments().any(|h| test(h.extent().end));
    let later = elf.segments().count() > 1 && elf.segments().next().is_some_and(open);
    let length = reading.submission.image.len();
    vec![
        ("ELF image as short as can be", length == shortest_elf().len()),
        ("segment refused that ends at 2^32", end(|end| end == ADDRESS_SPACE)),
        ("segment refused that ends past 2^32", end(|end| end > ADDRESS_SPACE)),
        ("segments that share by a wrapped end alone", shares_by_wrapping(&elf)),
        ("segment refused behind an open one", refused && later),
    ]
}

/// Would two segments share an address if addresses past 2^32 went on from 0?
fn shares_by_wrapping(elf: &Elf) -> bool {
    let past = elf.segments().map(|h| h.extent().end).filter(|&end| end > ADDRESS_SPACE);
    let most = past.map(|end| end - ADDRESS_SPACE).max().unwrap_or(0);
    elf.segments().any(|h| h.extent().start < most)
}

/// The goals of a loaded ELF image.
pub fn load_goals(reading: &Reading, plan: &Plan) -> Vec<Goal> {
    let Some(elf) = elf_of(reading) else { return Vec::new() };
    let load = ElfLoad { reading, plan, elf };
    [load.segment_goals(), load.header_goals(), load.place_goals(), load.item_goals()].concat()
}

/// A load of an ELF image.
struct ElfLoad<'a> {
    reading: &'a Reading<'a>,
    plan: &'a Plan,
    elf: Elf,
}

impl ElfLoad<'_> {
    fn image_length(&self) -> u64 {
        self.reading.submission.image.len() as u64
    }

    fn any(&self, test: impl Fn(&ProgramHeader) -> bool) -> bool {
        self.elf.segments().any(test)
    }

    fn segment_goals(&self) -> Vec<Goal> {
        let count = self.elf.segments().count();
        let starts: Vec<u64> = self.elf.segments().map(|h| h.p_paddr).collect();
        let rising = starts.windows(2).all(|two| two[0] < two[1]);
        let touch = self.any(|a| self.any(|b| a.extent().end == b.extent().start));
        let length = self.image_length();
        let wild = |h: &ProgramHeader| h.p_filesz == 0 && h.p_offset > length;
        let entry = self.elf.e_entry;
        let first = self.elf.segments().next().is_some_and(|h| h.load().contains(&entry));
        vec![
            ("loaded 1 segment", count == 1),
            ("loaded 2 segments", count == 2),
            ("loaded 16 segments", count == MAX_PROGRAM_HEADERS),
            ("loaded segments in rising order", count > 1 && rising),
            ("loaded segments not in rising order", !rising),
            ("loaded segments that touch", touch),
            ("loaded a segment without zeros", self.any(|h| h.p_filesz == h.p_memsz)),
            ("loaded a segment of file bytes and zeros", self.any(has_both)),
            ("loaded a segment without file bytes", self.any(|h| h.p_filesz == 0)),
            ("loaded a segment without file bytes, its offset wild", self.any(wild)),
            ("loaded file bytes up to the image's end", self.any(|h| self.ends_image(h))),
            ("loaded file bytes twice", self.shares_file_bytes()),
            ("loaded with virtual addresses of their own", self.any(|h| h.p_vaddr != h.p_paddr)),
            ("loaded with the entry at a first file byte", self.any(|h| h.p_paddr == entry)),
            ("loaded with the entry at a last file byte", self.any(|h| h.load().end == entry + 1)),
            ("loaded with the entry in a later segment", !first),
        ]
    }

    fn ends_image(&self, header: &ProgramHeader) -> bool {
        header.p_filesz > 0 && header.file_place().end == self.image_length()
    }

    /// Do two segments have a file byte in common?
    fn shares_file_bytes(&self) -> bool {
        let places = self.elf.segments().map(ProgramHeader::file_place);
        let places: Vec<Range<u64>> = places.filter(|place| !place.is_empty()).collect();
        (0..places.len()).any(|b| (0..b).any(|a| share(&places[a], &places[b])))
    }

    fn header_goals(&self) -> Vec<Goal> {
        let table = &self.elf.table;
        let others: Vec<&ProgramHeader> = table.iter().filter(|h| h.p_type != 1).collect();
        let is_segment = |h: &ProgramHeader| h.p_type == 1 && h.p_memsz > 0;
        let first = table.iter().position(is_segment);
        let last = table.iter().rposition(is_segment);
        let within = &table[first.unwrap_or(0)..last.unwrap_or(0)];
        let wild =
            |h: &&ProgramHeader| h.p_filesz > h.p_memsz && h.file_place().end > self.image_length();
        let in_segment = |h: &ProgramHeader| self.any(|s| s.extent().contains(&h.p_paddr));
        vec![
            ("loaded with 16 program headers", table.len() == MAX_PROGRAM_HEADERS),
            ("loaded with other types between segments", within.iter().any(|h| h.p_type != 1)),
            ("loaded with a wild header of another type", others.iter().any(wild)),
            ("loaded with another type over a segment", others.iter().any(|h| in_segment(h))),
            (
                "loaded with a loadable header of memory size 0",
                self.elf.loadable().any(|h| h.p_memsz == 0),
            ),
        ]
    }

    fn place_goals(&self) -> Vec<Goal> {
        let (table, length) = (self.elf.table_place(), self.image_length());
        let at = self.reading.kernel.header_offset;
        let header = at..at + SHORT_HEADER as u64;
        let full_end = at + FULL_HEADER as u64;
        vec![
            ("loaded with a table at an odd offset", table.start % 2 == 1),
            ("loaded with a table at the image's end", table.end == length),
            ("loaded with a table over the ELF header", table.start < ELF_HEADER as u64),
            ("loaded with a table over the header", share(&table, &header)),
            ("loaded with the header over the ELF header", header.start < ELF_HEADER as u64),
            ("loaded with the header at the image's end", header.end == length),
            (
                "loaded with the header at the search limit",
                header.end == SEARCH_LIMIT as u64 && full_end <= length,
            ),
        ]
    }

    fn item_goals(&self) -> Vec<Goal> {
        let pages = self.reading.kernel.pages;
        let boundary = if pages { PAGE } else { WORD };
        let modules = self.plan.placed_modules();
        let block = self.plan.block;
        let between = |span: &Span| {
            self.any(|h| h.p_paddr < span.start.into())
                && self.any(|h| h.p_paddr >= span.end.into())
        };
        vec![
            ("module between two segments", modules.iter().any(between)),
            ("block between two segments", between(&block)),
            (
                "module fills the gap between two segments",
                modules.iter().any(|m| self.fills(m, boundary)),
            ),
            ("block fills the gap between two segments", self.fills(&block, WORD)),
            (
                "module a byte too long for the gap between two segments",
                modules.iter().any(|m| self.is_too_long(m, boundary)),
            ),
        ]
    }

    /// Does an item begin right behind a segment, but for its boundary, and end at another one?
    fn fills(&self, span: &Span, boundary: u64) -> bool {
        let (start, end) = (u64::from(span.start), u64::from(span.end));
        let behind = |h: &ProgramHeader| h.extent().end.next_multiple_of(boundary) == start;
        self.any(|h| h.p_paddr == end) && self.any(behind)
    }

    /// Would a module have its place between two segments, were it a byte shorter?
    fn is_too_long(&self, span: &Span, boundary: u64) -> bool {
        let length = u64::from(span.end - span.start);
        let gap = |end: u64| {
            let start = end.max(FLOOR).next_multiple_of(boundary);
            start..start + length - 1
        };
        let board: &Board = &self.reading.board;
        self.any(|above| {
            let fits = |h: &ProgramHeader| gap(h.extent().end).end == above.p_paddr;
            let open = |h: &ProgramHeader| gap(h.extent().end).all(|a| board.open(a));
            above.p_paddr < span.start.into() && self.any(|h| fits(h) && open(h))
        })
    }
}

fn has_both(header: &ProgramHeader) -> bool {
    header.p_filesz > 0 && header.p_filesz < header.p_memsz
}
