//! Borders of open memory at 0x500, for both kinds of image, in windows that begin at 0, below 0x500,
//! there and inside the kernel. All of that memory is usable.

use super::elf::{behind, data_at, e1_like, with_table, CODE_SEGMENT};
use super::{bare, loads, on_map, plan, refused, with_header_at, BenchCase};
use crate::input::case::Case;
use crate::input::draft::pattern;
use crate::input::elf::ProgramHeader;
use crate::input::pair::Pair;
use crate::rules::limits::RAM;
use viertompu::{Plan, Refusal};

/// A kernel of 48 bytes by address fields.
pub fn kernel_by_fields(start: u32) -> Vec<u8> {
    fields(start, start)
}

/// An ELF kernel of 48 bytes, eight of them from its file.
pub fn kernel_by_table(start: u32) -> Vec<u8> {
    table(start, start)
}

fn fields(start: u32, entry: u32) -> Vec<u8> {
    with_header_at(0, 48, [start, start, 0, 0, entry])
}

fn table(start: u32, entry: u32) -> Vec<u8> {
    bare(&with_table(entry, &[ProgramHeader::load(behind(1), start, 8, 48)]))
}

/// A submission on 4 KiB from 0 and 4 KiB from 1 MiB on, in a window from an address up to the end of
/// both.
fn in_window_from(first: u32, submission: Vec<u8>) -> Case {
    let memory = [Pair::new(0, 0x1000, RAM), Pair::new(0x10_0000, 0x1000, RAM)];
    let window = pattern(0, 0x10_1000 - first as usize);
    Case { first, window, ..on_map(submission, &memory) }
}

pub fn borders() -> Vec<BenchCase> {
    let mut cases = kernels_refused();
    cases.extend(segments_refused());
    cases.extend(refused_before());
    cases.extend(kernels_loaded());
    cases.extend(segments_loaded());
    cases
}

fn kernels_refused() -> Vec<BenchCase> {
    let at = |name: &str, first: u32, start: u32| {
        refused(name, in_window_from(first, kernel_by_fields(start)), Refusal::KernelNotOpen)
    };
    vec![
        at("a kernel at 0", 0, 0),
        at("a kernel at 0x400", 0, 0x400),
        at("a kernel up to 0x500", 0, 0x4D0),
        at("a kernel up to 0x501", 0, 0x4D1),
        at("a kernel at 0x4FF", 0, 0x4FF),
        at("a kernel at 0x4FF, window from there on", 0x4FF, 0x4FF),
        at("a kernel at 0x500, window from 0x501 on", 0x501, 0x500),
    ]
}

fn segments_refused() -> Vec<BenchCase> {
    let refused = |name: &str, case: Case| refused(name, case, Refusal::KernelNotOpen);
    let at = |name: &str, first: u32, start: u32| {
        refused(name, in_window_from(first, kernel_by_table(start)))
    };
    vec![
        at("a segment from 0", 0, 0),
        at("a segment at 0x400", 0, 0x400),
        at("a segment up to 0x500", 0, 0x4D0),
        at("a segment up to 0x501", 0, 0x4D1),
        at("a segment at 0x4FF", 0, 0x4FF),
        at("a segment at 0x4FF, window from there on", 0x4FF, 0x4FF),
        at("a segment at 0x500, window from 0x501 on", 0x501, 0x500),
        refused("a later segment up to 0x500", in_window_from(0, data_at(0x4F8).submission)),
    ]
}

/// 14 comes before 15.
fn refused_before() -> Vec<BenchCase> {
    let outside = |name: &str, submission: Vec<u8>| {
        refused(name, in_window_from(0, submission), Refusal::EntryOutsideLoad)
    };
    vec![
        outside("a kernel at 0x400, its entry behind it", fields(0x400, 0x430)),
        outside("a segment at 0x400, its entry in the zeros", table(0x400, 0x408)),
    ]
}

/// The block tells of all memory, and below 0x500 everything is as it was.
fn loaded(name: &str, case: Case, plan: Plan) -> BenchCase {
    let (first, block) = (case.first, plan.block.start);
    let kept = pattern(0, 0x500 - first as usize);
    loads(name, case, plan).holding(first, &kept).telling(block, 4, 4)
}

fn kernels_loaded() -> Vec<BenchCase> {
    let plan = plan([0x500, 0x530, 0x530], 0x500, [0x10_0000, 0x10_0090], &[]);
    let in_window =
        |name: &str, first: u32| loaded(name, in_window_from(first, kernel_by_fields(0x500)), plan);
    vec![
        in_window("a kernel at 0x500", 0),
        in_window("a kernel at 0x500, window from 0x2A0 on", 0x2A0),
        in_window("a kernel at 0x500, window from 0x4FF on", 0x4FF),
        in_window("a kernel at 0x500, window from there on", 0x500),
    ]
}

fn segments_loaded() -> Vec<BenchCase> {
    let plan = plan([0x500, 0x508, 0x530], 0x500, [0x10_0000, 0x10_0090], &[]);
    let plan = Plan { header_offset: 84, ..plan };
    let in_window =
        |name: &str, first: u32| loaded(name, in_window_from(first, kernel_by_table(0x500)), plan);
    let segments = [CODE_SEGMENT, [0x500, 0x504, 0x508]];
    let later = e1_like(&segments, [0x10_0010, 0x10_0015], [0x10_0018, 0x10_00BA]);
    vec![
        in_window("a segment at 0x500", 0),
        in_window("a segment at 0x500, window from 0x2A0 on", 0x2A0),
        in_window("a segment at 0x500, window from 0x4FF on", 0x4FF),
        in_window("a segment at 0x500, window from there on", 0x500),
        loaded("a later segment at 0x500", in_window_from(0, data_at(0x500).submission), later)
            .holding(0x500, b"data\0\0\0\0"),
    ]
}
