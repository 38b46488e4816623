//! The numbers of the rules, each in one place.

/// The page size: the boundary of modules where the header asks for it.
pub const PAGE: u64 = 4096;
/// The boundary of modules otherwise, and of the information block.
pub const WORD: u64 = 4;
/// The interrupt vectors and the BIOS data area lie below this; no address there is open.
pub const BIOS_DATA_END: u64 = 0x500;
/// The lowest address at which a module or the information block may stand.
pub const FLOOR: u64 = 0x10_0000;
/// The highest address at which a window may end.
pub const TOP: u64 = 0xFFFF_F000;
/// One past the last physical address.
pub const ADDRESS_SPACE: u64 = 1 << 32;

/// Modules of a submission.
pub const MAX_MODULES: usize = 16;
/// Bytes of a command line.
pub const MAX_LINE: usize = 255;
/// Bytes of a module's string.
pub const MAX_STRING: usize = 127;
/// Bytes of a memory map.
pub const MAX_MAP: usize = 4096;
/// Pairs of a memory map.
pub const MAX_PAIRS: usize = 32;
/// The least value of a pair's size field: base, length and type.
pub const MIN_PAIR_SIZE: usize = 20;
/// The type of a pair whose addresses are usable where no pair of another type bars them.
pub const RAM: u32 = 1;
/// The low memory of the review program's board.
pub const LOW_MEMORY: u64 = 0x9_FC00;

/// A submission's first bytes.
pub const MARK: &[u8] = b"KSB";
/// The version of the submission's format whose modules have no ceiling.
pub const VERSION_1: u16 = 1;
/// The version whose modules may have one.
pub const VERSION_2: u16 = 2;
/// How many addresses a MiB has, the unit of ceilings.
pub const MIB: u64 = 1 << 20;
/// The bytes before a submission's module table.
pub const PREFIX: usize = 12;
/// The bytes of one entry of a submission's module table.
pub const TABLE_ENTRY: usize = 8;

/// The header lies in this many first bytes of the image.
pub const SEARCH_LIMIT: usize = 8192;
/// The bytes of a header without address fields.
pub const SHORT_HEADER: usize = 12;
/// The last offset at which a header may stand.
pub const LAST_HEADER: usize = SEARCH_LIMIT - SHORT_HEADER;
/// The bytes of a header with address fields.
pub const FULL_HEADER: usize = 32;
/// The header's first word.
pub const HEADER_MAGIC: u32 = 0x1BAD_B002;
/// The header's flag that asks for modules on page boundaries.
pub const PAGE_ALIGNED: u32 = 1;
/// The header's flag that announces the address fields.
pub const ADDRESS_FIELDS: u32 = 1 << 16;

/// The first bytes of an ELF image.
pub const ELF_MARK: &[u8] = b"\x7FELF";
/// The bytes of an ELF header.
pub const ELF_HEADER: usize = 52;
/// The class of an ELF image: 32 bits.
pub const ELFCLASS32: u8 = 1;
/// Its data: little-endian.
pub const ELFDATA2LSB: u8 = 1;
/// Its type: an executable.
pub const ET_EXEC: u16 = 2;
/// Its machine: the 80386.
pub const EM_386: u16 = 3;
/// The bytes of a program header.
pub const PROGRAM_HEADER: usize = 32;
/// Program headers of an ELF image.
pub const MAX_PROGRAM_HEADERS: usize = 16;
/// The type of a loadable program header.
pub const PT_LOAD: u32 = 1;

/// EAX at the hand-over.
pub const BOOT_MAGIC: u32 = 0x2BAD_B002;
/// The flags of the block's structure: memory sizes, modules, memory map and loader name.
pub const STRUCTURE_FLAGS: u32 = 0x249;
/// Its flag for a command line.
pub const CMDLINE_FLAG: u32 = 0x4;
/// The bytes of the block's structure.
pub const STRUCTURE: u64 = 88;
/// The bytes of one module entry of the information block.
pub const MODULE_ENTRY: u64 = 16;
/// The loader's name, without its final zero.
pub const LOADER_NAME: &[u8] = b"shelf 1";
/// The addresses of a KiB, in which mem_lower and mem_upper count.
pub const KIB: u64 = 1024;
/// The greatest value of mem_lower.
pub const MAX_MEM_LOWER: u64 = 640;
