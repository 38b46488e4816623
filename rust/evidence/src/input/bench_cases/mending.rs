//! Images to be mended: magics with wrong sums at several offsets, in each other's bytes, at the
//! borders of what is searched, and with flags of all kinds.

use super::false_headers::image;
use crate::input::draft::magics;
use crate::rules::limits::HEADER_MAGIC;
use crate::rules::MendAnswer;
use viertompu::{Mending, NoMagic};

/// An image and the answer it must give.
pub struct MendCase {
    pub name: &'static str,
    pub image: Vec<u8>,
    pub answer: MendAnswer,
}

/// Flags 0x10001 with the checksum of 0x10000, and with the right one.
const PATCHED: &str = "02 B0 AD 1B 01 00 01 00 FE 4F 51 E4";
const RIGHT: &str = "02 B0 AD 1B 01 00 01 00 FD 4F 51 E4";
/// Three magics in a row.
const THREE: &str = "02 B0 AD 1B 02 B0 AD 1B 02 B0 AD 1B";

pub fn images_to_mend() -> Vec<MendCase> {
    [alone(), several(), at_the_borders(), with_flags()].into_iter().flatten().collect()
}

fn found(name: &'static str, image: Vec<u8>) -> MendCase {
    MendCase { name, image, answer: Ok(Mending::HeaderFound) }
}

fn mended(name: &'static str, image: Vec<u8>, [offset, old, new]: [u32; 3]) -> MendCase {
    MendCase { name, image, answer: Ok(Mending::Mended { offset, old, new }) }
}

fn refused(name: &'static str, image: Vec<u8>) -> MendCase {
    MendCase { name, image, answer: Err(NoMagic) }
}

/// The patched header at an offset.
fn patched_at(name: &'static str, image: Vec<u8>, offset: u32) -> MendCase {
    mended(name, image, [offset, 0xE451_4FFE, 0xE451_4FFD])
}

fn alone() -> Vec<MendCase> {
    vec![
        found("a header alone", image(12, &[(0, RIGHT)])),
        patched_at("a patched header at 0", image(12, &[(0, PATCHED)]), 0),
        patched_at("a patched header at 64", image(96, &[(64, PATCHED)]), 64),
        refused("an image of no byte", vec![]),
        refused("an image of 11 bytes", image(11, &[(0, PATCHED)])),
        refused("an image of zeros", vec![0; 64]),
        refused("a patched header at 2", image(64, &[(2, PATCHED)])),
    ]
}

fn several() -> Vec<MendCase> {
    let overlapping = [0, HEADER_MAGIC, 0xC8A4_9FFC];
    let for_flags = image(64, &[(16, PATCHED), (20, "02 B0 AD 1B")]);
    let over_another = image(24, &[(0, THREE), (8, PATCHED)]);
    vec![
        found("a patched header before a header", image(64, &[(0, PATCHED), (40, RIGHT)])),
        found("a patched header behind a header", image(64, &[(0, RIGHT), (40, PATCHED)])),
        patched_at("two patched headers", image(64, &[(16, PATCHED), (40, PATCHED)]), 16),
        mended("the magic for flags", for_flags, [16, 0xE451_4FFE, 0xC8A4_9FFC]),
        mended("three magics in a row", image(12, &[(0, THREE)]), overlapping),
        mended("a patched header in a magic's bytes", over_another, overlapping),
        mended("the magic in every word", magics(9000), overlapping),
    ]
}

fn at_the_borders() -> Vec<MendCase> {
    vec![
        patched_at("a patched header at 8,180", image(9000, &[(8180, PATCHED)]), 8180),
        patched_at("a patched header at the end", image(64, &[(52, PATCHED)]), 52),
        refused("a patched header at 8,184", image(9000, &[(8184, PATCHED)])),
        refused("a header at 8,184", image(9000, &[(8184, RIGHT)])),
        refused("a patched header that the end cuts off", image(63, &[(52, PATCHED)])),
        patched_at(
            "8,180 and a header behind",
            image(9000, &[(8180, PATCHED), (8192, RIGHT)]),
            8180,
        ),
    ]
}

/// Flags are summed and not judged.
fn with_flags() -> Vec<MendCase> {
    let with = |flags_and_checksum: &str| image(12, &[(0, "02 B0 AD 1B"), (4, flags_and_checksum)]);
    vec![
        mended("undefined flags", with("FC FF FE FF 00 00 00 00"), [0, 0, 0xE453_5002]),
        mended("all flags", with("FF FF FF FF 00 00 00 00"), [0, 0, 0xE452_4FFF]),
        mended("flags for a checksum of 0", with("FE 4F 52 E4 01 00 00 00"), [0, 1, 0]),
        mended("flags for the magic", with("FC 9F A4 C8 00 00 00 00"), [0, 0, HEADER_MAGIC]),
    ]
}
