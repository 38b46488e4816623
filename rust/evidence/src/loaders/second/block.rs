//! The information block.

use super::memory_map::{mem_lower, mem_upper};
use super::spans::Span;
use super::{word, Examined, Placed};
use crate::rules::bytes::put_u32;
use crate::rules::limits::{CMDLINE_FLAG, LOADER_NAME, MODULE_ENTRY, STRUCTURE, STRUCTURE_FLAGS};
use crate::rules::offsets::structure;

/// The block's length, known before anything is placed.
pub fn length(examined: &Examined) -> u64 {
    let modules = &examined.submission.modules;
    let strings: u64 = modules.iter().map(|module| text_size(module.string)).sum();
    STRUCTURE
        + MODULE_ENTRY * modules.len() as u64
        + examined.map.bytes.len() as u64
        + text_size(LOADER_NAME)
        + text_size(examined.command_line)
        + strings
}

/// The bytes a text takes: itself and a zero, or none if it is empty.
fn text_size(text: &[u8]) -> u64 {
    match text {
        [] => 0,
        _ => text.len() as u64 + 1,
    }
}

/// Everything the block tells.
pub struct Block<'a> {
    examined: &'a Examined<'a>,
    modules: &'a [Span],
    span: Span,
}

/// Texts one behind the other, each with a zero.
struct Texts {
    next: u64,
    bytes: Vec<u8>,
}

impl Texts {
    /// Stores a text and gives its address; an empty one is not stored and has address 0.
    fn store(&mut self, text: &[u8]) -> u32 {
        if text.is_empty() {
            return 0;
        }
        let address = word(self.next);
        self.bytes.extend_from_slice(text);
        self.bytes.push(0);
        self.next += text_size(text);
        address
    }
}

impl<'a> Block<'a> {
    pub fn new(examined: &'a Examined<'a>, placed: &'a Placed) -> Self {
        Block { examined, modules: &placed.modules, span: placed.block }
    }

    fn mods_addr(&self) -> u64 {
        self.span.start + STRUCTURE
    }

    fn mmap_addr(&self) -> u64 {
        self.mods_addr() + MODULE_ENTRY * self.modules.len() as u64
    }

    /// The block's bytes, in the order of their addresses.
    pub fn bytes(&self) -> Vec<u8> {
        let map = self.examined.map.bytes;
        let mut texts = Texts { next: self.mmap_addr() + map.len() as u64, bytes: Vec::new() };
        let boot_loader_name = texts.store(LOADER_NAME);
        let cmdline = texts.store(self.examined.command_line);
        let entries = self.module_entries(&mut texts);
        let structure = self.structure(boot_loader_name, cmdline);
        let bytes = [&structure[..], &entries, map, &texts.bytes].concat();
        assert_eq!(bytes.len() as u64, self.span.end - self.span.start);
        bytes
    }

    fn structure(&self, boot_loader_name: u32, cmdline: u32) -> Vec<u8> {
        let usable = self.examined.map.usable();
        let flags = match cmdline {
            0 => STRUCTURE_FLAGS,
            _ => STRUCTURE_FLAGS | CMDLINE_FLAG,
        };
        let mut bytes = vec![0; STRUCTURE as usize];
        let mut put = |field: usize, value: u32| put_u32(&mut bytes, field, value);
        put(structure::FLAGS, flags);
        put(structure::MEM_LOWER, word(mem_lower(&usable)));
        put(structure::MEM_UPPER, word(mem_upper(&usable)));
        put(structure::CMDLINE, cmdline);
        put(structure::MODS_COUNT, word(self.modules.len() as u64));
        put(structure::MODS_ADDR, word(self.mods_addr()));
        put(structure::MMAP_LENGTH, word(self.examined.map.bytes.len() as u64));
        put(structure::MMAP_ADDR, word(self.mmap_addr()));
        put(structure::BOOT_LOADER_NAME, boot_loader_name);
        bytes
    }

    fn module_entries(&self, texts: &mut Texts) -> Vec<u8> {
        let mut bytes = Vec::new();
        for (module, span) in self.examined.submission.modules.iter().zip(self.modules) {
            let string = texts.store(module.string);
            for field in [word(span.start), word(span.end), string, 0] {
                bytes.extend_from_slice(&field.to_le_bytes());
            }
        }
        bytes
    }
}
