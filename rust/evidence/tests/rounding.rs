//! Rounding up: a module behind kernels that end at every distance from its boundary.

use evidence::compare::common_outcome;
use evidence::input::case::Case;
use evidence::input::draft::{Draft, Header, Module};
use evidence::input::pair::Pair;
use evidence::rules::limits::{FLOOR, FULL_HEADER, PAGE, PAGE_ALIGNED, RAM, WORD};
use viertompu::read_words;

/// The lowest of the kernels' ends, a page boundary.
const LOWEST_END: u64 = FLOOR + PAGE;
/// Room for the longest kernel, and a page for the module and the block.
const ROOM: u64 = 3 * PAGE;

/// A kernel from 1 MiB up to an end, and a module of one byte.
fn kernel_up_to(end: u64, flags: u32) -> Case {
    let first = FLOOR as u32;
    let header = Header { bss_end_addr: end as u32, ..Header::loading_to(first, flags) };
    let draft = Draft {
        filler: vec![0; FULL_HEADER],
        header,
        modules: vec![Module { data: vec![0x5A], ..Module::default() }],
        pairs: vec![Pair::new(FLOOR, ROOM, RAM)],
        first,
        window: ROOM as usize,
        ..Draft::default()
    };
    draft.case(format!("a kernel up to {end:X} with flags {flags}"))
}

/// Counting up from the kernel's end, the module stands at the first multiple of its boundary.
#[test]
fn a_module_stands_at_the_lowest_multiple_not_below_the_kernels_end() {
    for (flags, boundary) in [(0, WORD), (PAGE_ALIGNED, PAGE)] {
        for end in LOWEST_END..=LOWEST_END + PAGE {
            let case = kernel_up_to(end, flags);
            let outcome =
                common_outcome(&case).unwrap_or_else(|what| panic!("{}: {what}", case.name));
            let plan = read_words(&outcome.words).expect("there is room");
            let lowest = (end..).find(|address| address % boundary == 0);
            assert_eq!(Some(plan.modules[0].start.into()), lowest, "{}", case.name);
        }
    }
}
