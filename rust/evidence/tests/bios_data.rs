//! The interrupt vectors and the BIOS data area: kernels of both kinds around 0x500, in windows that
//! begin below it, there and inside the kernel.

use evidence::compare::{common_outcome, sound};
use evidence::input::bench_cases::{kernel_by_fields, kernel_by_table};
use evidence::input::case::Case;
use evidence::input::draft::pattern;
use evidence::input::generate;
use evidence::input::pair::{map_bytes, Pair};
use evidence::loaders::{run, second, Loader, Outcome, PROVED};
use evidence::rules::limits::{FLOOR, PREFIX, RAM};
use evidence::rules::words;
use viertompu::{read_words, Segment};

const CASES: u64 = 20_000;

/// A submission in a window of usable memory.
fn in_window(first: u32, end: u32, submission: Vec<u8>) -> Case {
    let window = pattern(0, (end - first) as usize);
    let map = map_bytes(&[Pair::new(0, end.into(), RAM)]);
    Case { submission, first, map, window, ..Case::default() }
}

/// All loaders and the model give a case this number.
fn gives(case: &Case, number: u32) -> Result<(), String> {
    let given = common_outcome(case)?.words[0];
    if given == number {
        Ok(())
    } else {
        Err(format!("{given} and not {number}"))
    }
}

/// A kernel that passes 15 has no room for the block here, below 1 MiB.
#[test]
fn a_kernel_passes_15_from_0x500_on() {
    for first in [0, 0x200, 0x4FF, 0x500, 0x501, 0x510] {
        for start in 0x4C0..=0x520 {
            let number = if start < 0x500 || start < first { 15 } else { 17 };
            for submission in [kernel_by_fields(start), kernel_by_table(start)] {
                gives(&in_window(first, 0x600, submission), number).unwrap_or_else(|what| {
                    panic!("at {start:X}, window from {first:X} on: {what}")
                });
            }
        }
    }
}

/// A loader leaves the bytes below 0x500 alone, and gives the same without them.
fn keeps_to_0x500(loader: Loader, case: &Case) -> bool {
    let below = (0x500 - case.first) as usize;
    let shorter = Case { first: 0x500, window: case.window[below..].to_vec(), ..case.clone() };
    let (whole, part) = (run(loader, case), run(loader, &shorter));
    whole.words == part.words
        && whole.window[..below] == case.window[..below]
        && whole.window[below..] == part.window
}

#[test]
fn a_window_needs_nothing_below_0x500() {
    let has_0x500 = |case: &Case| case.first < 0x500 && case.addresses().end > 0x500;
    let cases = (0..CASES).map(|index| generate::case(1, index)).filter(has_0x500);
    let (mut tried, mut loaded) = (0, 0);
    for case in cases {
        for (name, loader) in PROVED.into_iter().chain([("second", second::load as Loader)]) {
            assert!(keeps_to_0x500(loader, &case), "{}: {name}", case.name);
        }
        tried += 1;
        loaded += u32::from(run(second::load, &case).words[0] == 0);
    }
    assert!(tried > 300 && loaded > 30, "{tried} tried, {loaded} loaded");
}

/// What a loader would leave behind that loads a kernel by address fields to any address: the load
/// of the same kernel to 0x600, with the kernel moved in plan and window.
fn loaded_to(start: u32, case: &Case) -> Outcome {
    let higher = Case { submission: kernel_by_fields(0x600), ..case.clone() };
    let mut outcome = run(second::load, &higher);
    let mut plan = read_words(&outcome.words).expect("0x600 is open");
    let end = start + 48;
    plan.entry = start;
    plan.segments[0] = Segment { start, load_end: end, extent_end: end };
    outcome.words = words(&Ok(plan));
    outcome.window[0x600..0x630].copy_from_slice(&case.window[0x600..0x630]);
    outcome.window[start as usize..end as usize].copy_from_slice(&case.submission[PREFIX..]);
    outcome
}

#[test]
fn a_reading_finds_a_load_below_0x500() {
    let is_sound = |start: u32| {
        let case = in_window(0, FLOOR as u32 + 0x1000, kernel_by_fields(start));
        sound(&case, &loaded_to(start, &case)).is_ok()
    };
    assert_eq!([0, 0x4D0, 0x4FF, 0x500].map(is_sound), [false, false, false, true]);
}
