//! Reads a finished load as a kernel would, by following addresses from EBX, and finds that the
//! window holds what the submission, the map and the command line hold, and nothing else changed.

use super::elf::{Elf, ProgramHeader};
use crate::input::case::Case;
use crate::loaders::model::{self, Module, Reading};
use crate::loaders::Outcome;
use crate::rules::bytes::u32_at;
use crate::rules::limits::{
    ADDRESS_FIELDS, BIOS_DATA_END, BOOT_MAGIC, CMDLINE_FLAG, ELF_MARK, FLOOR, LOADER_NAME,
    MODULE_ENTRY, PAGE, PAGE_ALIGNED, STRUCTURE, STRUCTURE_FLAGS, WORD,
};
use crate::rules::offsets::{header, structure};
use viertompu::{Plan, Segment, Span};

/// The fields of the block's structure that are given.
const GIVEN: [usize; 9] = [
    structure::FLAGS,
    structure::MEM_LOWER,
    structure::MEM_UPPER,
    structure::CMDLINE,
    structure::MODS_COUNT,
    structure::MODS_ADDR,
    structure::MMAP_LENGTH,
    structure::MMAP_ADDR,
    structure::BOOT_LOADER_NAME,
];

/// Says what in a load is not as it should be.
pub fn check(case: &Case, plan: &Plan, outcome: &Outcome) -> Result<(), String> {
    let reading = model::read(case).map_err(|_| "loaded what is refused")?;
    let memory = Memory { first: u64::from(case.first), bytes: &outcome.window };
    let load = Load { case, reading, plan, memory };
    load.header()?;
    load.kernel()?;
    load.modules()?;
    load.structure()?;
    load.module_entries()?;
    load.contents()?;
    load.rest()
}

/// A finished load and what it was made from.
struct Load<'a> {
    case: &'a Case,
    reading: Reading<'a>,
    plan: &'a Plan,
    memory: Memory<'a>,
}

/// The window after the load, by address. Addresses are wide, so that no sum of them wraps.
struct Memory<'a> {
    first: u64,
    bytes: &'a [u8],
}

impl<'a> Memory<'a> {
    fn part(&self, start: u64, end: u64) -> Result<&'a [u8], String> {
        let offset = |address: u64| address.checked_sub(self.first).map(|n| n as usize);
        let part = match (offset(start), offset(end)) {
            (Some(start), Some(end)) => self.bytes.get(start..end),
            _ => None,
        };
        part.ok_or(format!("{start:08X} to {end:08X} is not in the window"))
    }

    fn span(&self, span: Span) -> Result<&'a [u8], String> {
        self.part(u64::from(span.start), u64::from(span.end))
    }

    fn word(&self, address: u64) -> Result<u64, String> {
        let bytes = self.part(address, address + 4)?;
        Ok(u64::from(u32_at(bytes, 0)))
    }

    /// The text at an address, up to its zero.
    fn text(&self, address: u64) -> Result<&'a [u8], String> {
        let bytes = self.part(address, self.first + self.bytes.len() as u64)?;
        let length = bytes.iter().position(|&byte| byte == 0);
        Ok(&bytes[..length.ok_or("a text without an end")?])
    }
}

fn demand(holds: bool, what: &str) -> Result<(), String> {
    if holds {
        Ok(())
    } else {
        Err(format!("a load is wrong in: {what}"))
    }
}

/// A kernel as its image tells it, as exact numbers.
struct Kernel {
    parts: Vec<Part>,
    entry: u64,
}

/// Where bytes of the image go.
struct Part {
    offset: u64,
    start: u64,
    load_end: u64,
    extent_end: u64,
}

impl<'a> Load<'a> {
    fn image(&self) -> &'a [u8] {
        self.reading.submission.image
    }

    /// A word of the header that the plan names.
    fn header_word(&self, offset: usize) -> Result<u32, String> {
        let at = self.plan.header_offset as usize + offset;
        let bytes = self.image().get(at..at + 4);
        Ok(u32_at(bytes.ok_or("the header is not in the image")?, 0))
    }

    /// The modules with their spans.
    fn placed_modules(&self) -> impl Iterator<Item = (&Module<'a>, &Span)> {
        self.reading.submission.modules.iter().zip(&self.plan.modules)
    }

    /// The plan names the header that the model finds, and as many false headers below it.
    fn header(&self) -> Result<(), String> {
        let told = [self.plan.header_offset, self.plan.false_headers].map(u64::from);
        let kernel = &self.reading.kernel;
        demand(told == [kernel.header_offset, kernel.false_headers], "header")
    }

    /// Each part of the kernel stands at its place in table order, and nothing else in the plan.
    fn kernel(&self) -> Result<(), String> {
        let flags = self.header_word(header::FLAGS)?;
        let announced = flags & ADDRESS_FIELDS != 0;
        let kernel = if announced { self.by_address_fields() } else { self.by_table() }?;
        let loaded = self.plan.loaded_segments();
        demand(loaded.len() == kernel.parts.len(), "count of segments")?;
        for (part, segment) in kernel.parts.iter().zip(loaded) {
            self.segment(part, segment)?;
        }
        let mut loads = loaded.iter().map(|segment| segment.start..segment.load_end);
        let inside = loads.any(|load| load.contains(&self.plan.entry));
        demand(u64::from(self.plan.entry) == kernel.entry && inside, "entry")?;
        let unused = &self.plan.segments[loaded.len()..];
        demand(unused.iter().all(|s| *s == Segment::default()), "segments")
    }

    /// A part's file bytes lie at its addresses past the BIOS data area, and zeros behind them.
    fn segment(&self, part: &Part, segment: &Segment) -> Result<(), String> {
        let told = [segment.start, segment.load_end, segment.extent_end].map(u64::from);
        demand(told == [part.start, part.load_end, part.extent_end], "segment's addresses")?;
        demand(part.start >= BIOS_DATA_END, "interrupt vectors and BIOS data")?;
        let loaded = self.memory.part(part.start, part.load_end)?;
        let zeros = self.memory.part(part.load_end, part.extent_end)?;
        let from = usize::try_from(part.offset).ok();
        let image = from.and_then(|from| self.image().get(from..));
        let stands = loaded.is_empty() || image.is_some_and(|image| image.starts_with(loaded));
        demand(stands, "load bytes")?;
        demand(zeros.iter().all(|&byte| byte == 0), "bss")
    }

    /// The kernel as the address fields give it.
    fn by_address_fields(&self) -> Result<Kernel, String> {
        let field = |offset: usize| self.header_word(offset).map(i64::from);
        let (header_addr, start) = (field(header::HEADER_ADDR)?, field(header::LOAD_ADDR)?);
        let offset = i64::from(self.plan.header_offset) - (header_addr - start);
        let load_end = match field(header::LOAD_END_ADDR)? {
            0 => start + self.image().len() as i64 - offset,
            load_end_addr => load_end_addr,
        };
        let extent_end = load_end.max(field(header::BSS_END_ADDR)?);
        let number = |number: i64| u64::try_from(number).map_err(|_| "a number below 0");
        let part = Part {
            offset: number(offset)?,
            start: number(start)?,
            load_end: number(load_end)?,
            extent_end: number(extent_end)?,
        };
        Ok(Kernel { parts: vec![part], entry: number(field(header::ENTRY_ADDR)?)? })
    }

    /// The kernel as the image's program headers give it.
    fn by_table(&self) -> Result<Kernel, String> {
        let image = Some(self.image()).filter(|image| image.starts_with(ELF_MARK));
        let elf = image.and_then(Elf::read).ok_or("loaded neither way")?;
        let part = |segment: &ProgramHeader| Part {
            offset: segment.p_offset,
            start: segment.p_paddr,
            load_end: segment.load().end,
            extent_end: segment.extent().end,
        };
        Ok(Kernel { parts: elf.segments().map(part).collect(), entry: elf.e_entry })
    }

    /// Each module's data stands whole at a boundary from 1 MiB up, and ends at or below its
    /// ceiling.
    fn modules(&self) -> Result<(), String> {
        let flags = self.header_word(header::FLAGS)?;
        let boundary = if flags & PAGE_ALIGNED != 0 { PAGE } else { WORD };
        for (module, span) in self.placed_modules() {
            let start = u64::from(span.start);
            demand(start >= FLOOR && start % boundary == 0, "module's boundary")?;
            let under = |ceiling: u64| u64::from(span.end) <= ceiling;
            demand(module.ceiling.is_none_or(under), "module's ceiling")?;
            demand(self.memory.span(*span)? == module.data, "module's data")?;
        }
        let unused = &self.plan.modules[self.reading.submission.modules.len()..];
        demand(unused.iter().all(|m| *m == Span::default()), "modules")
    }

    /// A word of the block's structure.
    fn field(&self, offset: usize) -> Result<u64, String> {
        self.memory.word(u64::from(self.plan.ebx) + offset as u64)
    }

    /// The structure's flags and counts, and zeros in every field that is not given.
    fn structure(&self) -> Result<(), String> {
        let ebx = u64::from(self.plan.ebx);
        demand(self.plan.eax == BOOT_MAGIC, "EAX")?;
        demand(self.plan.ebx == self.plan.block.start, "EBX")?;
        demand(ebx >= FLOOR && ebx % WORD == 0, "block's boundary")?;
        let with_line = if self.reading.command_line.is_empty() { 0 } else { CMDLINE_FLAG };
        let flags = u64::from(STRUCTURE_FLAGS | with_line);
        demand(self.field(structure::FLAGS)? == flags, "flags")?;
        let mods_count = self.reading.submission.modules.len() as u64;
        demand(self.field(structure::MODS_COUNT)? == mods_count, "mods_count")?;
        demand(self.field(structure::MODS_ADDR)? == ebx + STRUCTURE, "mods_addr")?;
        let mmap_length = self.case.map.len() as u64;
        demand(self.field(structure::MMAP_LENGTH)? == mmap_length, "mmap_length")?;
        for offset in (0..STRUCTURE as usize).step_by(4).filter(|at| !GIVEN.contains(at)) {
            demand(self.field(offset)? == 0, "fields not given")?;
        }
        Ok(())
    }

    /// Each entry tells the module's place and its string.
    fn module_entries(&self) -> Result<(), String> {
        let mut entry = self.field(structure::MODS_ADDR)?;
        for (module, span) in self.placed_modules() {
            let word = |offset: u64| self.memory.word(entry + offset);
            demand(word(0)? == u64::from(span.start), "mod_start")?;
            demand(word(4)? == u64::from(span.end), "mod_end")?;
            demand(word(12)? == 0, "module entry's last word")?;
            let told = match word(8)? {
                0 => &[],
                address => self.memory.text(address)?,
            };
            demand(told == module.string, "module's string")?;
            entry += MODULE_ENTRY;
        }
        Ok(())
    }

    /// Map, loader name, command line and strings follow each other without gaps to the block's
    /// end.
    fn contents(&self) -> Result<(), String> {
        let mods_addr = u64::from(self.plan.ebx) + STRUCTURE;
        let entries = (mods_addr..).step_by(MODULE_ENTRY as usize);
        let mut next = mods_addr + MODULE_ENTRY * self.reading.submission.modules.len() as u64;
        demand(self.field(structure::MMAP_ADDR)? == next, "mmap_addr")?;
        let end = next + self.case.map.len() as u64;
        demand(self.memory.part(next, end)? == self.case.map, "map")?;
        next = end;
        let mut expect = |text: &[u8], told: u64| {
            let address = if text.is_empty() { 0 } else { next };
            demand(told == address, "text's address")?;
            if !text.is_empty() {
                demand(self.memory.text(told)? == text, "text")?;
                next += text.len() as u64 + 1;
            }
            Ok::<(), String>(())
        };
        expect(LOADER_NAME, self.field(structure::BOOT_LOADER_NAME)?)?;
        expect(self.reading.command_line, self.field(structure::CMDLINE)?)?;
        for (module, entry) in self.reading.submission.modules.iter().zip(entries) {
            expect(module.string, self.memory.word(entry + 8)?)?;
        }
        demand(next == u64::from(self.plan.block.end), "block's end")
    }

    /// No two parts share a byte, and no byte outside of them changed.
    fn rest(&self) -> Result<(), String> {
        let extent = |segment: &Segment| Span { start: segment.start, end: segment.extent_end };
        let mut spans: Vec<Span> = self.plan.loaded_segments().iter().map(extent).collect();
        spans.extend(self.placed_modules().map(|(_, span)| span));
        spans.push(self.plan.block);
        spans.sort_by_key(|span| span.start);
        let apart = |two: &[Span]| two[0].end <= two[1].start;
        demand(spans.windows(2).all(apart), "parts that share a byte")?;
        let (before, after) = (&self.case.window, self.memory.bytes);
        let unchanged = |from: usize, to: usize| before[from..to] == after[from..to];
        let offset = |address: u32| (u64::from(address) - self.memory.first) as usize;
        let mut from = 0;
        for span in spans {
            demand(unchanged(from, offset(span.start)), "bytes between")?;
            from = offset(span.end);
        }
        demand(unchanged(from, after.len()), "bytes behind")
    }
}
