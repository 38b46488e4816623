//! False headers: how many are told, with a header behind them and without one.

use super::{
    b1, bare, bytes, loads, on_board, plan, refused, BenchCase, B1_ENTRY, B1_IMAGE, FLAGS_0,
    FLAGS_10001,
};
use crate::input::draft::{magics, overlay};
use crate::rules::bytes::put_u32;
use crate::rules::offsets::header::{BSS_END_ADDR, HEADER_ADDR};
use viertompu::{Plan, Refusal};

/// The magic and a wrong sum.
const FALSE: &str = "02 B0 AD 1B 00 00 00 00 FF 4F 52 E4";

pub fn borders() -> Vec<BenchCase> {
    let mut cases = without_header();
    cases.extend(at_the_limit());
    cases.extend(before_a_header());
    cases.extend(refused_headers());
    cases
}

/// An image of zeros with bytes at some offsets, the later ones over the earlier.
pub(super) fn image(length: usize, parts: &[(usize, &str)]) -> Vec<u8> {
    let mut image = vec![0; length];
    parts.iter().for_each(|&(at, part)| overlay(&mut image, at, &bytes(part)));
    image
}

fn none(name: &str, image: &[u8], false_headers: u32) -> BenchCase {
    refused(name, on_board(bare(image)), Refusal::NoHeader { false_headers })
}

fn without_header() -> Vec<BenchCase> {
    let inside = "02 B0 AD 1B 02 B0 AD 1B 02 B0 AD 1B";
    let three = [(0, FALSE), (40, FALSE), (60, FALSE)];
    vec![
        none("no byte", &[], 0),
        none("no false header", &[0; 64], 0),
        none("a false header of 12 bytes", &image(12, &[(0, FALSE)]), 1),
        none("the same without its last byte", &image(11, &[(0, FALSE)]), 0),
        none("a false header at the end", &image(64, &[(52, FALSE)]), 1),
        none("one that the image's end cuts off", &image(64, &[(56, FALSE)]), 0),
        none("a false header at 1", &image(64, &[(1, FALSE)]), 0),
        none("a false header at 2", &image(64, &[(2, FALSE)]), 0),
        none("three false headers", &image(72, &three), 3),
        none("three false headers in one's bytes", &image(20, &[(0, inside)]), 3),
        none("the same without room for the last", &image(16, &[(0, inside)]), 2),
    ]
}

fn at_the_limit() -> Vec<BenchCase> {
    vec![
        none("a false header at 8,180", &image(9000, &[(8180, FALSE)]), 1),
        none("a false header at 8,184", &image(9000, &[(8184, FALSE)]), 0),
        none("the magic in 8,192 bytes", &magics(8192), 2046),
        none("the magic in 8,191 bytes", &magics(8191), 2045),
        none("the magic in 12,000 bytes", &magics(12_000), 2046),
        none("the magic in 8,192 bytes, but at 0", &[&[0; 4], &magics(8188)[..]].concat(), 2045),
        none("the magic in 8,192 bytes, a header behind", &behind(&magics(8192)), 2046),
    ]
}

/// B1's kernel without a bss, its header behind these bytes, all of them loaded.
fn behind(front: &[u8]) -> Vec<u8> {
    let mut image = [front, &b1()[B1_IMAGE]].concat();
    let offset = front.len();
    put_u32(&mut image, offset + HEADER_ADDR, 0x10_0000 + offset as u32);
    put_u32(&mut image, offset + BSS_END_ADDR, 0);
    image
}

/// Loads with the header at an offset, behind so many false ones.
fn loaded(name: &str, image: &[u8], header_offset: u32, false_headers: u32) -> BenchCase {
    let end = 0x10_0000 + image.len() as u32;
    let plan = plan([0x10_0000, end, end], B1_ENTRY, [end, end + 144], &[]);
    loads(name, on_board(bare(image)), Plan { header_offset, false_headers, ..plan })
}

fn before_a_header() -> Vec<BenchCase> {
    let after = |at: usize| behind(&image(64, &[(at, FALSE)]));
    let twice = behind(&image(64, &[(0, FALSE), (56, FALSE)]));
    let followed = [&behind(&[])[..], &bytes(FALSE)].concat();
    vec![
        loaded("no false header before a header", &behind(&[0; 64]), 64, 0),
        loaded("a false header before a header", &after(8), 64, 1),
        loaded("a false header at 2 before a header", &after(2), 64, 0),
        loaded("two false ones, one in the header's bytes", &twice, 64, 2),
        loaded("the magic in every word before a header", &behind(&magics(64)), 64, 16),
        loaded("the magic in 8,160 bytes before a header", &behind(&magics(8160)), 8160, 2040),
        loaded("a false header behind the header", &followed, 0, 0),
    ]
}

/// A header that is refused has false ones below it; the answer has no item.
fn refused_headers() -> Vec<BenchCase> {
    let before = |header: &str| on_board(bare(&image(28, &[(0, FALSE), (16, header)])));
    let most = on_board(bare(&[magics(8180), bytes(FLAGS_0)].concat()));
    vec![
        refused("the magic in 8,180 bytes before flags 0", most, Refusal::NoAddressFields),
        refused("a false header before flags 0", before(FLAGS_0), Refusal::NoAddressFields),
        refused("a false header before one cut off", before(FLAGS_10001), Refusal::HeaderCutOff),
    ]
}
