//! The loading of Multiboot 0.6.93 kernels, proved: a safe interface to the static library.
//!
//! [`load`] decides for every submission, operator's command line, memory map and window between a
//! load, after which each byte of the window is known, and a numbered refusal that changes nothing.
//! The rules, the formats of submission and map among them, are told in `docs/RULES.md`.
//! [`mend`] gives an image whose header has a wrong checksum the right one.
//!
//! A dependency `viertompu = { path = "…/rust/viertompu" }` links `target/staticlib/libviertompu.a`,
//! which `tools/staticlib` writes, for x86-64. The crate has no std, no heap and no other
//! crates; for boot code, `include/viertompu.h` tells what the archive needs and uses.
//!
//! ```
//! // Usable memory from 0 on (0x9FC00 bytes) and from 0x100000 on (0x700000 bytes).
//! let pairs: [u32; 12] = [20, 0, 0, 0x9_FC00, 0, 1, 20, 0x10_0000, 0, 0x70_0000, 0, 1];
//! let map: Vec<u8> = pairs.iter().flat_map(|word| word.to_le_bytes()).collect();
//! let sample = concat!(env!("CARGO_MANIFEST_DIR"), "/../../samples/b1.ksb");
//! let submission = std::fs::read(sample)?;
//!
//! // A window of 48 KiB that stands for physical memory from 0x100000 on.
//! let mut window = vec![0; 48 * 1024];
//! let plan = viertompu::load(&submission, b"", &map, &mut window, 0x10_0000)?;
//! assert_eq!(plan.entry, 0x10_0020);
//! assert_eq!(plan.placed_modules(), [viertompu::Span { start: 0x10_1000, end: 0x10_1005 }]);
//! assert_eq!(&window[0x1000..0x1005], b"hello");
//!
//! // One byte less, and the module has no room: the window keeps every byte it had.
//! let mut short = vec![0xAA; 0x1004];
//! let refusal = viertompu::load(&submission, b"", &map, &mut short, 0x10_0000).unwrap_err();
//! assert_eq!(refusal, viertompu::Refusal::NoRoomForModule { index: 0 });
//! assert_eq!((refusal.number(), refusal.item()), (16, 0));
//! assert!(refusal.to_string().starts_with("there is no room for a module"));
//! assert!(short.iter().all(|&byte| byte == 0xAA));
//! # Ok::<(), Box<dyn std::error::Error>>(())
//! ```

#![no_std]

mod mending;
mod plan;
mod refusal;
mod words;

pub use mending::{read_mend_words, MendWords, Mending, NoMagic, MEND_WORDS};
pub use plan::{Plan, Segment, Span, MAX_MODULES, MAX_SEGMENTS};
pub use refusal::Refusal;
pub use words::{read_words, Words, WORDS};

extern "sysv64" {
    /// As `include/viertompu.h` declares it.
    fn viertompu_load(
        submission: *const u8,
        submission_len: usize,
        operator_line: *const u8,
        operator_len: usize,
        map: *const u8,
        map_len: usize,
        window: *mut u8,
        window_len: usize,
        first: u32,
        plan: *mut u32,
    ) -> u32;

    /// As `include/viertompu.h` declares it.
    fn viertompu_mend(image: *mut u8, image_len: usize, report: *mut u32) -> u32;
}

/// Loads a submission into the window, which stands for physical memory from the address `first`
/// on; or gives the first check that refuses, and leaves the window as it was. No byte of
/// the window below 0x500 is ever written: the interrupt vectors and the BIOS data area lie there.
///
/// The operator's command line may be empty; then the submission's is in force.
pub fn load(
    submission: &[u8],
    operator_line: &[u8],
    map: &[u8],
    window: &mut [u8],
    first: u32,
) -> Result<Plan, Refusal> {
    let mut words = [0; WORDS];
    load_words(submission, operator_line, map, window, first, &mut words);
    read_words(&words)
}

/// Does as [`load`], writes the decision as the words of the C interface, and gives its number.
#[inline]
pub fn load_words(
    submission: &[u8],
    operator_line: &[u8],
    map: &[u8],
    window: &mut [u8],
    first: u32,
    words: &mut Words,
) -> u32 {
    // SAFETY: each pointer comes with the length of the slice it is taken from; window and words
    // are borrowed for writing and overlap nothing; the function keeps no pointer.
    unsafe {
        viertompu_load(
            submission.as_ptr(),
            submission.len(),
            operator_line.as_ptr(),
            operator_line.len(),
            map.as_ptr(),
            map.len(),
            window.as_mut_ptr(),
            window.len(),
            first,
            words.as_mut_ptr(),
        )
    }
}

/// Mends the checksum at the lowest magic of an image that has no header, and changes no other
/// byte; or tells that it has a header, or no magic either, and leaves it as it was.
///
/// The flags are not judged, and only the first 8,192 bytes count.
///
/// ```
/// // A header whose flags were patched and whose checksum is that of flags 0.
/// let words: [u32; 3] = [0x1BAD_B002, 0x3, 0xE452_4FFE];
/// let mut image = words.map(u32::to_le_bytes).concat();
/// let mended = viertompu::Mending::Mended { offset: 0, old: 0xE452_4FFE, new: 0xE452_4FFB };
/// assert_eq!(viertompu::mend(&mut image), Ok(mended));
/// assert_eq!(viertompu::mend(&mut image), Ok(viertompu::Mending::HeaderFound));
/// assert_eq!(viertompu::mend(&mut [0; 12]), Err(viertompu::NoMagic));
/// ```
pub fn mend(image: &mut [u8]) -> Result<Mending, NoMagic> {
    let mut words = [0; MEND_WORDS];
    let number = mend_words(image, &mut words);
    read_mend_words(number, &words)
}

/// Does as [`mend`], writes the words of the C interface, and gives the number.
#[inline]
pub fn mend_words(image: &mut [u8], words: &mut MendWords) -> u32 {
    // SAFETY: the pointer comes with the length of its slice; image and words are borrowed for
    // writing and overlap nothing; the function keeps no pointer.
    unsafe { viertompu_mend(image.as_mut_ptr(), image.len(), words.as_mut_ptr()) }
}
