//! Worked cases and borders of ELF images.

use super::{
    bare, bytes, in_window, loads, on_board, plan_of, refused, with_pair, BenchCase, FLAGS_0,
    FLAGS_10000,
};
use crate::input::case::Case;
use crate::input::draft::{overlay, pattern, submission, Module, Version};
use crate::input::elf::{Elf, ElfHeader, ProgramHeader};
use crate::input::pair::Pair;
use crate::rules::limits::{ELF_HEADER, HEADER_MAGIC, PROGRAM_HEADER, RAM};
use crate::rules::offsets::elf_header::*;
use crate::rules::offsets::header::{CHECKSUM, FLAGS};
use crate::rules::offsets::program_header::*;
use std::ops::Range;
use viertompu::{Plan, Refusal};

/// The first ELF case: 198 bytes, also `samples/elf.ksb`. Its image has an ELF header, three
/// program headers, the second of another type, a header, eight bytes of code and four of data.
const E1: &str = "4B 53 42 01 00 01 AC 00 00 00 00 00
    05 00 00 00 01 00 00 00
    7F 45 4C 46 01 01 01 00 00 00 00 00 00 00 00 00
    02 00 03 00 01 00 00 00 00 00 10 00 34 00 00 00
    00 00 00 00 00 00 00 00 34 00 20 00 03 00 00 00 00 00 00 00
    01 00 00 00 A0 00 00 00 00 00 10 C0 00 00 10 00 08 00 00 00 10 00 00 00 05 00 00 00 04 00 00 00
    51 E5 74 64 00 00 00 00 00 00 00 00 00 00 00 00 00 00 00 00 00 00 00 00 06 00 00 00 10 00 00 00
    01 00 00 00 A8 00 00 00 18 00 10 C0 18 00 10 00 04 00 00 00 08 00 00 00 06 00 00 00 04 00 00 00
    02 B0 AD 1B 00 00 00 00 FE 4F 52 E4
    FA F4 EB FD 90 90 90 90 64 61 74 61 68 65 6C 6C 6F 61";

/// Where E1's image lies.
const E1_IMAGE: Range<usize> = 20..192;
/// Where the program headers of code and data stand in it, and the one between them.
const CODE: usize = 52;
const STACK: usize = 84;
const DATA: usize = 116;
/// Where its header stands.
const HEADER: usize = 148;

const CODE_BYTES: &[u8] = b"\xFA\xF4\xEB\xFD\x90\x90\x90\x90";
pub const CODE_SEGMENT: [u32; 3] = [0x10_0000, 0x10_0008, 0x10_0010];
const DATA_SEGMENT: [u32; 3] = [0x10_0018, 0x10_001C, 0x10_0020];
const ENTRY: u32 = 0x10_0000;
/// E1's module, which fits between the segments, and its block behind them.
const MODULE: [u32; 2] = [0x10_0010, 0x10_0015];
const BLOCK: [u32; 2] = [0x10_0020, 0x10_00C2];

/// The shortest image that loads: its one program header stands in its ELF header from 7 on, and its
/// header begins with the ELF header's last word. It loads its first eight bytes to 16 MiB.
const SHORTEST: &str = "7F 45 4C 46 01 01 01 01 00 00 00 00 00 00 00 00
    02 00 03 00 00 00 01 08 00 00 00 01 07 00 00 00
    00 00 00 00 00 00 00 00 34 00 20 00 01 00 00 00 02 B0 AD 1B 00 00 00 00 FE 4F 52 E4";

/// As short, with its program header from 8 on: its entry is its file size, so that it lies low.
const SHORTEST_AND_LOW: &str = "7F 45 4C 46 01 01 01 00 01 00 00 00 00 00 00 00
    02 00 03 00 08 00 00 00 08 00 00 00 08 00 00 00
    00 00 00 00 00 00 00 00 34 00 20 00 01 00 00 00 02 B0 AD 1B 00 00 00 00 FE 4F 52 E4";

/// Shorter, with a header from 32 on: the entry size is the upper half of its checksum, which takes
/// undefined bits.
const ELF_HEADER_ALONE: &str = "7F 45 4C 46 01 01 01 00 01 00 00 00 00 00 00 00
    02 00 03 00 08 00 00 00 08 00 00 00 08 00 00 00
    02 B0 AD 1B 00 00 32 E4 FE 4F 20 00 01 00 00 00 00 00 00 00";

pub fn shortest_elf() -> Vec<u8> {
    bytes(SHORTEST)
}

pub fn e1() -> Vec<u8> {
    bytes(E1)
}

/// E1 with other bytes in its image.
fn e1_bytes(at: usize, bytes: &[u8]) -> Case {
    let mut submission = e1();
    overlay(&mut submission, E1_IMAGE.start + at, bytes);
    on_board(submission)
}

/// E1 with fields of its image replaced.
fn e1_with(changes: &[(usize, u32)]) -> Case {
    let mut submission = e1();
    for &(at, value) in changes {
        overlay(&mut submission, E1_IMAGE.start + at, &value.to_le_bytes());
    }
    on_board(submission)
}

/// E1 with its data segment at another address.
pub fn data_at(address: u32) -> Case {
    e1_with(&[(DATA + P_PADDR, address)])
}

fn e1_image() -> Vec<u8> {
    e1()[E1_IMAGE].to_vec()
}

/// An image on B1's board, its header at an offset, and the plan of its segments and its block.
fn kernel(
    name: &str,
    image: &[u8],
    offset: u32,
    segments: &[[u32; 3]],
    block: [u32; 2],
) -> BenchCase {
    let plan = Plan { header_offset: offset, ..plan_of(segments, ENTRY, block, &[]) };
    loads(name, on_board(bare(image)), plan)
}

/// E1's plan with other segments, module and block.
pub fn e1_like(segments: &[[u32; 3]], module: [u32; 2], block: [u32; 2]) -> Plan {
    Plan { header_offset: HEADER as u32, ..plan_of(segments, ENTRY, block, &[module]) }
}

fn e1_plan() -> Plan {
    e1_like(&[CODE_SEGMENT, DATA_SEGMENT], MODULE, BLOCK)
}

/// An image of its ELF header, which names the entry, a table, a header without address fields, and
/// bytes.
pub fn with_table(entry: u32, table: &[ProgramHeader]) -> Vec<u8> {
    let elf = Elf::new(ELF_HEADER, entry, table.to_vec());
    [elf.header.bytes(), elf.table_bytes(), bytes(FLAGS_0), pattern(0, 128)].concat()
}

/// Where the bytes stand behind a table and a header.
pub fn behind(count: usize) -> u32 {
    (ELF_HEADER + PROGRAM_HEADER * count + 12) as u32
}

/// The worked cases.
pub fn bench() -> Vec<BenchCase> {
    vec![e1_itself(), by_address_fields(), sixteen_segments(), header_inside(), header_last()]
}

fn e1_itself() -> BenchCase {
    loads("an ELF kernel and a module between its segments", on_board(e1()), e1_plan())
        .holding(0x10_0000, CODE_BYTES)
        .holding(0x10_0008, &[0; 8])
        .holding(0x10_0010, b"hello")
        .holding(0x10_0015, &pattern(0x15, 3))
        .holding(0x10_0018, b"data\0\0\0\0")
        .holding(0x10_0020, &0x249u32.to_le_bytes())
        .holding(0x10_0078, &bytes("10 00 10 00 15 00 10 00 C0 00 10 00 00 00 00 00"))
        .holding(0x10_00C0, b"a\0")
        .telling(0x10_0020, 639, 7168)
}

/// Bit 16 set in an ELF file: its address fields decide, though it is of class 2.
fn by_address_fields() -> BenchCase {
    let fields: [u32; 5] = [0x10_0094, 0x10_0000, 0, 0, ENTRY];
    let fields: Vec<u8> = fields.iter().flat_map(|field| field.to_le_bytes()).collect();
    let mut image = [&e1_image()[..HEADER], &bytes(FLAGS_10000), &fields].concat();
    image[EI_CLASS] = 2;
    let segments = [[0x10_0000, 0x10_00B4, 0x10_00B4]];
    kernel("bit 16 set in an ELF file", &image, 148, &segments, [0x10_00B4, 0x10_0144])
        .holding(0x10_0000, &image)
}

/// Sixteen segments that touch, in falling order.
fn sixteen_segments() -> BenchCase {
    let start = |index: u32| 0x10_0000 + 8 * (15 - index);
    let header = |index: u32| ProgramHeader::load(behind(16) + 8 * index, start(index), 8, 8);
    let image = with_table(ENTRY, &(0..16).map(header).collect::<Vec<_>>());
    let segment = |index: u32| [start(index), start(index) + 8, start(index) + 8];
    let segments: Vec<[u32; 3]> = (0..16).map(segment).collect();
    let block = [0x10_0080, 0x10_0110];
    kernel("sixteen segments in falling order", &image, 564, &segments, block)
        .holding(0x10_0000, &pattern(120, 8))
        .holding(0x10_0078, &pattern(0, 8))
}

/// An ELF header in which a header stands at 24: the entry is its magic, the table's offset its
/// flags and the offset of the sections its checksum.
fn with_header_inside(e_phnum: u16) -> ElfHeader {
    let (e_entry, e_shoff) = (HEADER_MAGIC, 0xE452_4FFE);
    ElfHeader { e_entry, e_phoff: 0, e_shoff, e_phnum, ..ElfHeader::default() }
}

/// The first two of its program headers lie over the ELF header and are of other types.
fn header_inside() -> BenchCase {
    let third = ProgramHeader::load(96, 0x1BAD_B000, 8, 16).bytes();
    let image = [with_header_inside(3).bytes(), vec![0; 12], third, CODE_BYTES.to_vec()].concat();
    let board = with_pair(bare(&image), Pair::new(0x1BAD_B000, 0x1000, RAM));
    let case = Case { first: 0x1BAD_B000, window: pattern(0, 0x100), ..board };
    let segment = [0x1BAD_B000, 0x1BAD_B008, 0x1BAD_B010];
    let plan = plan_of(&[segment], 0x1BAD_B002, [0x1BAD_B010, 0x1BAD_B0B8], &[]);
    loads("a header inside the ELF header", case, Plan { header_offset: 24, ..plan })
        .holding(0x1BAD_B000, CODE_BYTES)
}

/// A header without room for address fields, up to the image's end and to the search limit.
fn header_last() -> BenchCase {
    let mut image = e1_image();
    image.resize(8192, 0);
    image.copy_within(HEADER..HEADER + 12, 8180);
    image[HEADER] = 0;
    let segments = [CODE_SEGMENT, DATA_SEGMENT];
    kernel("an ELF image's header at 8,180", &image, 8180, &segments, [0x10_0020, 0x10_00B0])
}

/// A program header that is not loadable holds a false header, the last word of it in the next.
fn false_header_in_table() -> BenchCase {
    let case = e1_with(&[(DATA - 8, HEADER_MAGIC)]);
    let plan = Plan { false_headers: 1, ..e1_plan() };
    loads("a false header in an ELF image's table", case, plan)
}

/// Borders of the answers.
pub fn borders() -> Vec<BenchCase> {
    let mut cases = flag_borders();
    cases.push(false_header_in_table());
    cases.extend(shortest_images());
    cases.extend(mark_and_kind());
    cases.extend(table_borders());
    cases.extend(count_borders());
    cases.extend(file_size_borders());
    cases.extend(file_byte_borders());
    cases.extend(overlap_borders());
    cases.extend(entry_borders());
    cases.extend(open_borders());
    cases.extend(gap_borders());
    cases
}

/// E1 with other flags, their checksum, and a byte of its image.
fn e1_flags(flags: u32, checksum: u32, at: usize, byte: u8) -> Case {
    let mut case = e1_with(&[(HEADER + FLAGS, flags), (HEADER + CHECKSUM, checksum)]);
    case.submission[E1_IMAGE.start + at] = byte;
    case
}

/// 7 and 25 before all that is asked of an ELF image.
fn flag_borders() -> Vec<BenchCase> {
    use Refusal::{UndefinedBits, UnknownRequest};
    let flags = |flags: u32, checksum: u32| e1_flags(flags, checksum, 0, 0x7F);
    let with = |at: usize, byte: u8| e1_flags(0x0002_0000, 0xE450_4FFE, at, byte);
    let request = flags(0x0002_0004, 0xE450_4FFA);
    vec![
        refused("bit 17 in an ELF image", flags(0x0002_0000, 0xE450_4FFE), UndefinedBits),
        refused("bit 31 in an ELF image", flags(0x8000_0000, 0x6452_4FFE), UndefinedBits),
        refused("bits 2 and 17 in an ELF image", request, UnknownRequest),
        refused("bit 17 and a wrong mark", with(3, b'G'), UndefinedBits),
        refused("bit 17 and class 2", with(EI_CLASS, 2), UndefinedBits),
        refused("the ELF header alone", on_board(bare(&bytes(ELF_HEADER_ALONE))), UndefinedBits),
    ]
}

/// The shortest image on B1's board and 4 KiB from 16 MiB on, in a window there.
fn shortest(length: usize) -> Case {
    let board = with_pair(bare(&shortest_elf()[..length]), Pair::new(0x100_0000, 0x1000, RAM));
    Case { first: 0x100_0000, window: pattern(0, 0x7AC), ..board }
}

fn shortest_images() -> Vec<BenchCase> {
    use Refusal::{BadElf, KernelNotOpen, NoHeader};
    let segment = [0x100_0000, 0x100_0008, 0x100_0701];
    let plan = plan_of(&[segment], 0x100_0000, [0x100_0704, 0x100_07AC], &[]);
    let inside = |length: usize| on_board(bare(&with_header_inside(1).bytes()[..length]));
    let low = on_board(bare(&bytes(SHORTEST_AND_LOW)));
    let low = Case { first: 0, window: pattern(0, 0x10_0090), ..low };
    vec![
        refused("an ELF image of 51 bytes", inside(51), BadElf),
        refused("an ELF image of 52 bytes", inside(52), BadElf),
        refused("an ELF image of 59 bytes", shortest(59), NoHeader { false_headers: 0 }),
        loads("an ELF image of 60 bytes", shortest(60), Plan { header_offset: 48, ..plan })
            .holding(0x100_0000, b"\x7FELF\x01\x01\x01\x01")
            .holding(0x100_0008, &[0; 0x6F9])
            .holding(0x100_0701, &pattern(0x701, 3)),
        refused("an ELF image of 60 bytes at 8", low, KernelNotOpen),
    ]
}

fn mark_and_kind() -> Vec<BenchCase> {
    use Refusal::{BadElf, NoAddressFields};
    let kind = |at: usize, byte: u8| e1_bytes(at, &[byte]);
    let mark = |at: usize| e1_bytes(at, b"G");
    vec![
        refused("a wrong first byte of the mark", mark(0), NoAddressFields),
        refused("a wrong fourth byte of the mark", mark(3), NoAddressFields),
        refused("class 2", kind(EI_CLASS, 2), BadElf),
        refused("data 2", kind(EI_DATA, 2), BadElf),
        refused("type 3", kind(E_TYPE, 3), BadElf),
        refused("type 0x102", kind(E_TYPE + 1, 1), BadElf),
        refused("machine 62", kind(E_MACHINE, 62), BadElf),
        refused("machine 0x103", kind(E_MACHINE + 1, 1), BadElf),
        refused("an entry size of 31", kind(E_PHENTSIZE, 31), BadElf),
        refused("an entry size of 33", kind(E_PHENTSIZE, 33), BadElf),
        refused("an entry size of 0x120", kind(E_PHENTSIZE + 1, 1), BadElf),
    ]
}

fn table_borders() -> Vec<BenchCase> {
    use Refusal::BadElf;
    let past = |e_phoff: u32| e1_with(&[(E_PHOFF, e_phoff)]);
    let (image, segments) = (table_last(), [CODE_SEGMENT, DATA_SEGMENT]);
    let block = [0x10_0020, 0x10_00B0];
    let cut = on_board(bare(&image[..image.len() - 1]));
    vec![
        kernel("a table up to the image's end", &image, 148, &segments, block),
        refused("a table a byte past the image", cut, BadElf),
        refused("a table up to 2^32", past(0xFFFF_FFA0), BadElf),
        refused("a table past 2^32", past(0xFFFF_FFFF), BadElf),
        table_over_elf_header(),
    ]
}

/// E1's table behind its image and a byte more, which makes its offset odd.
fn table_last() -> Vec<u8> {
    let mut image = [&e1_image()[..], &[0xEE], &e1_image()[CODE..HEADER]].concat();
    overlay(&mut image, E_PHOFF, &173u32.to_le_bytes());
    overlay(&mut image, CODE, &[0xEE; HEADER - CODE]);
    image
}

/// A table from 48 on: the ELF header's last four bytes are the type of its first header.
fn table_over_elf_header() -> BenchCase {
    let mut elf = Elf::new(48, ENTRY, vec![ProgramHeader::load(92, 0x10_0000, 8, 16)]);
    elf.header.e_shnum = 1;
    let table = &elf.table_bytes()[4..];
    let image = [&elf.header.bytes(), table, &bytes(FLAGS_0), CODE_BYTES].concat();
    let block = [0x10_0010, 0x10_00A0];
    kernel("a table over the ELF header", &image, 80, &[CODE_SEGMENT], block)
        .holding(0x10_0000, CODE_BYTES)
}

/// How many program headers there may be, and how few segments.
fn count_borders() -> Vec<BenchCase> {
    use Refusal::BadElf;
    let many = |count: usize| {
        let mut table = vec![ProgramHeader::default(); count];
        table[count - 1] = ProgramHeader::load(behind(count), 0x10_0000, 8, 16);
        with_table(ENTRY, &table)
    };
    let block = [0x10_0010, 0x10_00A0];
    let empty = [(CODE + P_FILESZ, 0), (CODE + P_MEMSZ, 0), (DATA + P_TYPE, 2)];
    let alone = [(DATA + P_FILESZ, 0), (DATA + P_MEMSZ, 0)];
    let one = e1_like(&[CODE_SEGMENT], MODULE, [0x10_0018, 0x10_00BA]);
    let by_type = [(CODE + P_TYPE, 0x101), (DATA + P_TYPE, 0x0100_0001)];
    vec![
        kernel("16 program headers", &many(16), 564, &[CODE_SEGMENT], block)
            .holding(0x10_0000, &pattern(0, 8)),
        refused("17 program headers", on_board(bare(&many(17))), BadElf),
        refused("no program header", e1_with(&[(E_PHNUM, 0)]), BadElf),
        refused("no loadable program header", e1_with(&by_type), BadElf),
        refused("a loadable program header of memory size 0 alone", e1_with(&empty), BadElf),
        loads("memory size 0 and file size 0", e1_with(&alone), one),
    ]
}

/// File sizes and memory sizes, also of a header that is no segment.
fn file_size_borders() -> Vec<BenchCase> {
    use Refusal::BadProgramHeader;
    let code = |memsz: u32| e1_with(&[(CODE + P_MEMSZ, memsz)]);
    let no_zeros = [[0x10_0000, 0x10_0008, 0x10_0008], DATA_SEGMENT];
    let no_zeros = e1_like(&no_zeros, [0x10_0008, 0x10_000D], BLOCK);
    let other = [(STACK + P_OFFSET, 0xFFFF_FFFF), (STACK + P_FILESZ, 0xFFFF_FFFF)];
    let most = [(DATA + P_FILESZ, 0xFFFF_FFFF), (DATA + P_MEMSZ, 0xFFFF_FFFE)];
    vec![
        loads("a file size equal to the memory size", code(8), no_zeros),
        refused("a file size one above the memory size", code(7), BadProgramHeader),
        refused(
            "file bytes and a memory size of 0",
            e1_with(&[(DATA + P_MEMSZ, 0)]),
            BadProgramHeader,
        ),
        refused("a file size of 2^32 - 1", e1_with(&most), BadProgramHeader),
        loads("wild numbers in a header of another type", e1_with(&other), e1_plan()),
    ]
}

/// Where file bytes may stand in the image.
fn file_byte_borders() -> Vec<BenchCase> {
    use Refusal::BadProgramHeader;
    let data = |filesz: u32| e1_with(&[(DATA + P_FILESZ, filesz)]);
    let none = [(DATA + P_OFFSET, 0xFFFF_FFFF), (DATA + P_FILESZ, 0)];
    let none_plan = e1_like(&[CODE_SEGMENT, [0x10_0018, 0x10_0018, 0x10_0020]], MODULE, BLOCK);
    let one = [(DATA + P_OFFSET, 0xFFFF_FFFF), (DATA + P_FILESZ, 1)];
    let around = [(DATA + P_OFFSET, 0xFFFF_FFFC)];
    let behind_image = [(DATA + P_OFFSET, 172), (DATA + P_FILESZ, 1)];
    let last_byte = [(DATA + P_OFFSET, 171), (DATA + P_FILESZ, 1)];
    let last_plan = e1_like(&[CODE_SEGMENT, [0x10_0018, 0x10_0019, 0x10_0020]], MODULE, BLOCK);
    vec![
        loads("file bytes up to the image's end", data(4), e1_plan())
            .holding(0x10_0018, b"data\0\0\0\0"),
        refused("file bytes a byte past the image", data(5), BadProgramHeader),
        loads("no file bytes from 0xFFFFFFFF on", e1_with(&none), none_plan)
            .holding(0x10_0018, &[0; 8]),
        refused("one file byte at 0xFFFFFFFF", e1_with(&one), BadProgramHeader),
        refused("file bytes up to 2^32", e1_with(&around), BadProgramHeader),
        loads("the image's last byte as file byte", e1_with(&last_byte), last_plan)
            .holding(0x10_0018, b"a\0\0\0\0\0\0\0"),
        refused("one file byte behind the image", e1_with(&behind_image), BadProgramHeader),
    ]
}

fn overlap_borders() -> Vec<BenchCase> {
    use Refusal::SegmentsOverlap;
    let touching = [CODE_SEGMENT, [0x10_0010, 0x10_0014, 0x10_0018]];
    let touching = e1_like(&touching, [0x10_0018, 0x10_001D], BLOCK);
    let around = [(CODE + P_MEMSZ, 0x1000)];
    let shared = on_board(bare(&three_segments(0x10_000F)));
    vec![
        loads("segments that touch", data_at(0x10_0010), touching)
            .holding(0x10_0008, b"\0\0\0\0\0\0\0\0data\0\0\0\0hello"),
        refused("segments that share a byte", data_at(0x10_000F), SegmentsOverlap),
        refused("segments that share the first byte", data_at(0x0F_FFF9), SegmentsOverlap),
        refused("segments of one start", data_at(0x10_0000), SegmentsOverlap),
        refused("a segment inside another", e1_with(&around), SegmentsOverlap),
        first_and_last_touch(),
        refused("only the first and last of three segments share", shared, SegmentsOverlap),
    ]
}

/// Three segments of eight file bytes and eight zeros.
fn three_segments(last: u32) -> Vec<u8> {
    let starts = [0x10_0000, 0x10_0100, last];
    with_table(ENTRY, &starts.map(|start| ProgramHeader::load(behind(3), start, 8, 16)))
}

fn first_and_last_touch() -> BenchCase {
    let segment = |start: u32| [start, start + 8, start + 16];
    let segments = [0x10_0000, 0x10_0100, 0x10_0010].map(segment);
    let image = three_segments(0x10_0010);
    let block = [0x10_0020, 0x10_00B0];
    kernel("the first and last of three segments touch", &image, 148, &segments, block)
}

fn entry_borders() -> Vec<BenchCase> {
    let entry = |entry: u32| e1_with(&[(E_ENTRY, entry)]);
    let entered = |entry: u32| Plan { entry, ..e1_plan() };
    let outside =
        |name: &str, address: u32| refused(name, entry(address), Refusal::EntryOutsideLoad);
    vec![
        loads("an entry at a last file byte", entry(0x10_0007), entered(0x10_0007)),
        outside("an entry at a first zero", 0x10_0008),
        outside("an entry at a last zero", 0x10_000F),
        outside("an entry between segments", 0x10_0017),
        loads("an entry at a later segment's first byte", entry(0x10_0018), entered(0x10_0018)),
        loads("an entry at a later segment's last byte", entry(0x10_001B), entered(0x10_001B)),
        outside("an entry at a later segment's first zero", 0x10_001C),
        outside("an entry below the segments", 0x0F_FFFF),
        outside("an entry at a virtual address", 0xC010_0000),
    ]
}

/// Segments that are not open, and ends at 2^32.
fn open_borders() -> Vec<BenchCase> {
    use Refusal::{KernelNotOpen, NoRoomForBlock};
    let also_at_0 = e1_with(&[(DATA + P_PADDR, 0xFFFF_FFFC), (CODE + P_PADDR, 0), (E_ENTRY, 0)]);
    let last = [(DATA + P_PADDR, 0xFFFF_FFFF), (DATA + P_FILESZ, 1), (DATA + P_MEMSZ, 1)];
    let reserved = |address: u64| with_pair(e1(), Pair::new(address, 1, 2));
    let moved = [CODE_SEGMENT, DATA_SEGMENT];
    let moved = e1_like(&moved, [0x10_0020, 0x10_0025], [0x10_0028, 0x10_00E2]);
    vec![
        refused("a segment up to 2^32", data_at(0xFFFF_FFF8), KernelNotOpen),
        refused("a segment of the last address", e1_with(&last), KernelNotOpen),
        refused("a segment past 2^32", data_at(0xFFFF_FFFC), KernelNotOpen),
        refused("a segment past 2^32 and one from 0 on", also_at_0, KernelNotOpen),
        refused("a segment at 0", data_at(0), KernelNotOpen),
        refused("a reserved byte in a later segment's zeros", reserved(0x10_001F), KernelNotOpen),
        loads("a reserved byte between segments", reserved(0x10_0012), moved),
        refused("a window up to the last byte of a segment", in_window(e1(), 0x1F), KernelNotOpen),
        refused("a window up to the segments' end", in_window(e1(), 0x20), NoRoomForBlock),
    ]
}

/// The gap between E1's segments has eight bytes.
fn gap_borders() -> Vec<BenchCase> {
    let with = |data: &[u8]| {
        let module = Module { data: data.to_vec(), string: b"a".to_vec(), ceiling: 0 };
        on_board(submission(Version::One, &e1_image(), b"", &[module]))
    };
    let segments = [CODE_SEGMENT, DATA_SEGMENT];
    let between = e1_like(&segments, [0x10_0010, 0x10_0018], BLOCK);
    let behind = e1_like(&segments, [0x10_0020, 0x10_0029], [0x10_002C, 0x10_00CE]);
    vec![
        loads("a module that fills the gap", with(b"12345678"), between)
            .holding(0x10_0010, b"12345678data"),
        loads("a module a byte too long for the gap", with(b"123456789"), behind)
            .holding(0x10_0010, &pattern(0x10, 8))
            .holding(0x10_0020, b"123456789"),
    ]
}
