//! Versions and ceilings: modules around 2 MiB, under the lowest ceilings and the highest.

use super::{b1, b1_plan, loads, on_board, plan, refused, BenchCase};
use crate::input::case::Case;
use crate::input::draft::{pattern, submission, Header, Module, Version};
use crate::input::pair::{map_bytes, Pair};
use crate::rules::limits::{PAGE_ALIGNED, RAM};
use viertompu::{Plan, Refusal};

/// The length of a module, and its ceiling.
type Limited = (usize, u16);

/// A kernel of 32 bytes from an address on, which is a header alone, and modules, in a window that is
/// all usable.
fn in_window(first: u32, length: usize, start: u32, flags: u32, modules: &[Limited]) -> Case {
    let module = |&(length, ceiling): &Limited| Module {
        data: pattern(0, length),
        ceiling,
        ..Module::default()
    };
    let modules: Vec<Module> = modules.iter().map(module).collect();
    Case {
        submission: submission(
            Version::Two,
            &Header::loading_to(start, flags).bytes(),
            b"",
            &modules,
        ),
        map: map_bytes(&[Pair::new(first.into(), length as u64, RAM)]),
        window: pattern(0, length),
        first,
        ..Case::default()
    }
}

/// The same in a window of 8 KiB from the kernel on, modules on words.
fn from(start: u32, modules: &[Limited]) -> Case {
    in_window(start, 0x2000, start, 0, modules)
}

/// The same with modules on pages.
fn on_pages_from(start: u32, modules: &[Limited]) -> Case {
    in_window(start, 0x2000, start, PAGE_ALIGNED, modules)
}

/// The plan of such a kernel; the block has 120 bytes, and 16 for each module.
fn placed(start: u32, modules: &[[u32; 2]], block: u32) -> Plan {
    let end = start + 32;
    let block = [block, block + 120 + 16 * modules.len() as u32];
    plan([start, end, end], start, block, modules)
}

fn no_room(name: &str, case: Case, index: u32) -> BenchCase {
    refused(name, case, Refusal::NoRoomForModule { index })
}

pub fn borders() -> Vec<BenchCase> {
    let mut cases = versions();
    cases.extend(ends_of_modules());
    cases.extend(pages());
    cases.extend(least_ceilings());
    cases.extend(greatest_ceilings());
    cases.extend(later_modules());
    cases
}

/// B1 in a version, its module under a ceiling, both as they stand in the bytes.
fn b1_in(version: [u8; 2], ceiling: [u8; 2]) -> Case {
    let mut submission = b1();
    submission[3..5].copy_from_slice(&version);
    submission[18..20].copy_from_slice(&ceiling);
    on_board(submission)
}

fn versions() -> Vec<BenchCase> {
    use Refusal::{BadSubmission, NotASubmission};
    vec![
        refused("version 0", b1_in([0, 0], [0, 0]), NotASubmission),
        loads("version 2", b1_in([2, 0], [0, 0]), b1_plan()),
        refused("version 3", b1_in([3, 0], [0, 0]), NotASubmission),
        refused("version 257", b1_in([1, 1], [0, 0]), NotASubmission),
        refused("version 258", b1_in([2, 1], [0, 0]), NotASubmission),
        refused("a ceiling of 2 MiB in version 1", b1_in([1, 0], [2, 0]), BadSubmission),
        refused("a ceiling of 512 MiB in version 1", b1_in([1, 0], [0, 2]), BadSubmission),
        loads("a ceiling of 2 MiB in version 2", b1_in([2, 0], [2, 0]), b1_plan()),
        loads("a ceiling of 512 MiB in version 2", b1_in([2, 0], [0, 2]), b1_plan()),
    ]
}

/// Modules behind a kernel that ends eight bytes below 2 MiB.
fn ends_of_modules() -> Vec<BenchCase> {
    let start = 0x1F_FFD8;
    let long = placed(start, &[[0x1F_FFF8, 0x20_0001]], 0x20_0004);
    vec![
        loads(
            "a module up to its ceiling",
            from(start, &[(8, 2)]),
            placed(start, &[[0x1F_FFF8, 0x20_0000]], 0x20_0000),
        )
        .holding(0x1F_FFF8, &pattern(0, 8)),
        no_room("a module a byte past its ceiling", from(start, &[(9, 2)]), 0),
        loads("the same under the next ceiling", from(start, &[(9, 3)]), long),
        loads("the same without a ceiling", from(start, &[(9, 0)]), long),
        no_room("a module that begins at its ceiling", from(start + 8, &[(1, 2)]), 0),
        no_room("a module above its ceiling", from(start + 0x1000, &[(1, 2)]), 0),
    ]
}

/// Modules on the last page below 2 MiB, and on the next where the kernel reaches into it.
fn pages() -> Vec<BenchCase> {
    let start = 0x1F_EFE0;
    vec![
        loads(
            "a page up to its ceiling",
            on_pages_from(start, &[(0x1000, 2)]),
            placed(start, &[[0x1F_F000, 0x20_0000]], 0x20_0000),
        ),
        no_room("a page a byte past its ceiling", on_pages_from(start, &[(0x1001, 2)]), 0),
        no_room("the next page at the ceiling", on_pages_from(start + 4, &[(1, 2)]), 0),
        loads(
            "the same on a word",
            from(start + 4, &[(1, 2)]),
            placed(start + 4, &[[0x1F_F004, 0x1F_F005]], 0x1F_F008),
        ),
    ]
}

/// The lowest address of a module is 1 MiB.
fn least_ceilings() -> Vec<BenchCase> {
    let at_the_floor = |ceiling: u16| in_window(0x10_0000, 0x200, 0x10_0040, 0, &[(1, ceiling)]);
    let below = in_window(0x0F_F000, 0x1200, 0x0F_F000, 0, &[(1, 1)]);
    let lowest = placed(0x10_0040, &[[0x10_0000, 0x10_0001]], 0x10_0060);
    vec![
        no_room("a ceiling of 1 MiB", at_the_floor(1), 0),
        no_room("a ceiling of 1 MiB and memory below", below, 0),
        loads("a ceiling of 2 MiB", at_the_floor(2), lowest),
        no_room("a ceiling of 1 MiB in B1", b1_in([2, 0], [1, 0]), 0),
    ]
}

/// From 4,096 MiB on a ceiling asks nothing.
fn greatest_ceilings() -> Vec<BenchCase> {
    let start = 0xFFFF_EF00;
    let at_the_top = |ceiling: u16| in_window(start, 0x100, start, 0, &[(0x58, ceiling)]);
    let highest = placed(start, &[[0xFFFF_EF20, 0xFFFF_EF78]], 0xFFFF_EF78);
    let under = 0xFFEF_FFD8;
    vec![
        loads("a ceiling of 65,535 MiB", at_the_top(65_535), highest),
        loads("a ceiling of 4,097 MiB", at_the_top(4097), highest),
        loads("a ceiling of 4,096 MiB", at_the_top(4096), highest),
        no_room("a ceiling of 4,095 MiB", at_the_top(4095), 0),
        loads(
            "a module up to 4,095 MiB",
            from(under, &[(8, 4095)]),
            placed(under, &[[0xFFEF_FFF8, 0xFFF0_0000]], 0xFFF0_0000),
        ),
        no_room("a module a byte past 4,095 MiB", from(under, &[(9, 4095)]), 0),
    ]
}

/// The ceiling of one module is no other's, and not the block's.
fn later_modules() -> Vec<BenchCase> {
    let start = 0x1F_FFD8;
    let both = [[0x1F_FFF8, 0x20_0000], [0x20_0000, 0x20_0004]];
    let in_a_gap = in_window(start - 4, 0x2000, start, 0, &[(8, 0), (4, 2)]);
    let gap = [[0x1F_FFF8, 0x20_0000], [start - 4, start]];
    vec![
        no_room("a later module without room under its ceiling", from(start, &[(8, 0), (4, 2)]), 1),
        loads(
            "a later module without a ceiling",
            from(start, &[(8, 2), (4, 0)]),
            placed(start, &both, 0x20_0004),
        ),
        loads(
            "a later module under a higher ceiling",
            from(start, &[(8, 2), (4, 3)]),
            placed(start, &both, 0x20_0004),
        ),
        loads("a later module in a gap below", in_a_gap, placed(start, &gap, 0x20_0000)),
        no_room("the third of four", from(start, &[(4, 2), (4, 0), (1, 2), (1, 0)]), 2),
    ]
}
