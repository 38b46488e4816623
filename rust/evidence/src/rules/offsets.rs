//! Where the fields of the submission, the image's headers and the information block's structure
//! stand.

/// Offsets in a submission.
pub mod submission {
    pub const VERSION: usize = 3;
    pub const MODULE_COUNT: usize = 5;
    pub const IMAGE_LENGTH: usize = 6;
    pub const LINE_LENGTH: usize = 10;
}

/// Offsets in an entry of a submission's module table.
pub mod table_entry {
    pub const DATA_LENGTH: usize = 0;
    pub const STRING_LENGTH: usize = 4;
    pub const CEILING: usize = 6;
}

/// Offsets in a header.
pub mod header {
    pub const FLAGS: usize = 4;
    pub const CHECKSUM: usize = 8;
    pub const HEADER_ADDR: usize = 12;
    pub const LOAD_ADDR: usize = 16;
    pub const LOAD_END_ADDR: usize = 20;
    pub const BSS_END_ADDR: usize = 24;
    pub const ENTRY_ADDR: usize = 28;
}

/// Offsets in an ELF header.
pub mod elf_header {
    pub const EI_CLASS: usize = 4;
    pub const EI_DATA: usize = 5;
    pub const E_TYPE: usize = 16;
    pub const E_MACHINE: usize = 18;
    pub const E_ENTRY: usize = 24;
    pub const E_PHOFF: usize = 28;
    pub const E_PHENTSIZE: usize = 42;
    pub const E_PHNUM: usize = 44;
}

/// Offsets in a program header.
pub mod program_header {
    pub const P_TYPE: usize = 0;
    pub const P_OFFSET: usize = 4;
    pub const P_VADDR: usize = 8;
    pub const P_PADDR: usize = 12;
    pub const P_FILESZ: usize = 16;
    pub const P_MEMSZ: usize = 20;
}

/// Offsets in the information block's structure.
pub mod structure {
    pub const FLAGS: usize = 0;
    pub const MEM_LOWER: usize = 4;
    pub const MEM_UPPER: usize = 8;
    pub const CMDLINE: usize = 16;
    pub const MODS_COUNT: usize = 20;
    pub const MODS_ADDR: usize = 24;
    pub const MMAP_LENGTH: usize = 44;
    pub const MMAP_ADDR: usize = 48;
    pub const BOOT_LOADER_NAME: usize = 64;
}
