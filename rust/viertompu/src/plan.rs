//! The plan of a load.

/// Segments of a plan.
pub const MAX_SEGMENTS: usize = 16;
/// Modules of a plan.
pub const MAX_MODULES: usize = 16;

/// The addresses from `start` up to but not including `end`.
#[derive(Clone, Copy, Debug, Default, PartialEq, Eq)]
pub struct Span {
    pub start: u32,
    pub end: u32,
}

/// A part of the kernel: loaded up to `load_end`, cleared from there up to `extent_end`.
#[derive(Clone, Copy, Debug, Default, PartialEq, Eq)]
pub struct Segment {
    pub start: u32,
    pub load_end: u32,
    pub extent_end: u32,
}

/// Where everything of a load lies, and what is handed over.
#[derive(Clone, Copy, Debug, PartialEq, Eq)]
pub struct Plan {
    /// the header's offset in the image
    pub header_offset: u32,
    /// how many false headers stand below the header
    pub false_headers: u32,
    /// the address at which the kernel is entered
    pub entry: u32,
    /// the number handed over in EAX
    pub eax: u32,
    /// the number handed over in EBX: the information block's address
    pub ebx: u32,
    /// the information block
    pub block: Span,
    /// the kernel's segments, zeros past the last
    pub segments: [Segment; MAX_SEGMENTS],
    /// the modules in their order, zeros past the last
    pub modules: [Span; MAX_MODULES],
}

impl Plan {
    /// The kernel's segments, and no place without one.
    pub fn loaded_segments(&self) -> &[Segment] {
        let count = self.segments.iter().take_while(|s| s.extent_end != 0).count();
        &self.segments[..count]
    }

    /// The modules, and no place without one.
    pub fn placed_modules(&self) -> &[Span] {
        let count = self.modules.iter().take_while(|m| m.end != 0).count();
        &self.modules[..count]
    }
}
