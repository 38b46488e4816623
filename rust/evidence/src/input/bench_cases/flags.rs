//! Borders of the header's flags, each with the checksum that makes a header of it.

use super::{
    b1_with, b1_without_module, bytes, loads, on_board, plan, refused, with_header_at, BenchCase,
    B1_ENTRY, B1_SEGMENT, FLAGS_0, FLAGS_10000,
};
use crate::input::case::Case;
use crate::input::draft::overlay;
use crate::rules::limits::PREFIX;
use crate::rules::offsets::header::{CHECKSUM, FLAGS};
use viertompu::Refusal;

/// A header whose sum is 2^33.
const HIGH_SUM: &str = "02 B0 AD 1B 01 00 FF FF FD 4F 53 E4";

pub fn borders() -> Vec<BenchCase> {
    let mut cases = vec![bit_16_alone()];
    cases.extend(unknown_requests());
    cases.extend(undefined_bits());
    cases.extend(judged_though_refused());
    cases
}

/// B1 with other flags and a checksum.
fn b1_flags(flags: u32, checksum: u32) -> Case {
    on_board(b1_with(&[(FLAGS, flags), (CHECKSUM, checksum)]))
}

fn bit_16_alone() -> BenchCase {
    let mut submission = b1_without_module();
    overlay(&mut submission, PREFIX, &bytes(FLAGS_10000));
    let plan = plan(B1_SEGMENT, B1_ENTRY, [0x10_0030, 0x10_00C0], &[]);
    loads("flag bit 16 alone", on_board(submission), plan)
}

/// 7, also where 25 and 8 would follow.
fn unknown_requests() -> Vec<BenchCase> {
    use Refusal::UnknownRequest;
    vec![
        refused("flag bit 2", b1_flags(0x0001_0005, 0xE451_4FF9), UnknownRequest),
        refused("flag bit 15", b1_flags(0x0001_8001, 0xE450_CFFD), UnknownRequest),
        refused("flag bits 2, 16 and 17", b1_flags(0x0003_0004, 0xE44F_4FFA), UnknownRequest),
        refused("flag bits 15, 16 and 31", b1_flags(0x8001_8000, 0x6450_CFFE), UnknownRequest),
        refused("flag bits 2 and 17", b1_flags(0x0002_0004, 0xE450_4FFA), UnknownRequest),
        refused("the lowest flags of 2^33", b1_flags(0xE452_4FFF, 0xFFFF_FFFF), UnknownRequest),
    ]
}

/// 25, also where 8 would follow.
fn undefined_bits() -> Vec<BenchCase> {
    use Refusal::UndefinedBits;
    vec![
        refused("flag bit 17 alone", b1_flags(0x0002_0000, 0xE450_4FFE), UndefinedBits),
        refused("flag bit 31 alone", b1_flags(0x8000_0000, 0x6452_4FFE), UndefinedBits),
        refused("flag bits 16 and 17", b1_flags(0x0003_0000, 0xE44F_4FFE), UndefinedBits),
        refused("flag bits 16 and 31", b1_flags(0x8001_0000, 0x6451_4FFE), UndefinedBits),
        refused("flag bits 17 to 31", b1_flags(0xFFFE_0000, 0xE454_4FFE), UndefinedBits),
    ]
}

/// A header that is refused, and a good one behind it.
fn judged_though_refused() -> Vec<BenchCase> {
    use Refusal::{NoAddressFields, UndefinedBits};
    let before = |header: &str| {
        let fields = [0x10_0040, 0x10_0000, 0, 0, 0x10_0000];
        let mut submission = with_header_at(64, 96, fields);
        overlay(&mut submission, PREFIX, &bytes(header));
        on_board(submission)
    };
    vec![
        refused("flags 0 at 0, a header at 64", before(FLAGS_0), NoAddressFields),
        refused("a sum of 2^33 at 0, a header at 64", before(HIGH_SUM), UndefinedBits),
    ]
}
