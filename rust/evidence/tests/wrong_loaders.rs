//! Loaders that are wrong on purpose must be caught by the comparison.

use evidence::compare::by_address::{agrees, SMALL_BOARD};
use evidence::compare::{same, sound};
use evidence::input::bench_cases::{b1, e1};
use evidence::input::case::Case;
use evidence::input::draft::pattern;
use evidence::input::pair::{map_bytes, Pair};
use evidence::input::{generate, review_board};
use evidence::loaders::{model, run, second, Loader, Outcome};
use evidence::rules::bytes::{put_u32, u32_at};
use evidence::rules::limits::{
    FLOOR, PREFIX, RAM, SEARCH_LIMIT, TABLE_ENTRY, VERSION_1, VERSION_2,
};
use evidence::rules::offsets::{structure, submission, table_entry};
use evidence::rules::words;
use std::ops::Range;
use viertompu::{read_words, Plan, Refusal, Segment, Words};

const CASES: u64 = 2000;

fn refuses_everything(_: &Case, _: &mut [u8]) -> Words {
    words(&Err(Refusal::NotASubmission))
}

fn always_the_same_plan(case: &Case, window: &mut [u8]) -> Words {
    let words = second::load(case, window);
    match words[0] {
        0 => run(second::load, &review_board::case(&b1())).words,
        _ => words,
    }
}

fn never_writes(case: &Case, window: &mut [u8]) -> Words {
    second::load(case, &mut window.to_vec())
}

fn copies_the_first_module_alone(case: &Case, window: &mut [u8]) -> Words {
    let words = second::load(case, window);
    if let Ok(plan) = read_words(&words) {
        for module in &plan.modules[1..] {
            restore(case, window, module.start..module.end);
        }
    }
    words
}

/// Gives addresses the bytes that they had before the load.
fn restore(case: &Case, window: &mut [u8], addresses: Range<u32>) {
    if !addresses.is_empty() {
        let offset = |address: u32| (address - case.first) as usize;
        let part = offset(addresses.start)..offset(addresses.end);
        window[part.clone()].copy_from_slice(&case.window[part]);
    }
}

fn loads_the_first_segment_alone(case: &Case, window: &mut [u8]) -> Words {
    let words = second::load(case, window);
    if let Ok(plan) = read_words(&words) {
        for segment in &plan.segments[1..] {
            restore(case, window, segment.start..segment.extent_end);
        }
    }
    words
}

/// Loads all segments, and tells of the first.
fn tells_the_first_segment_alone(case: &Case, window: &mut [u8]) -> Words {
    let decision = read_words(&second::load(case, window)).map(|mut plan| {
        plan.segments[1..].fill(Segment::default());
        plan
    });
    words(&decision)
}

fn leaves_the_zeros_of_later_segments(case: &Case, window: &mut [u8]) -> Words {
    let words = second::load(case, window);
    if let Ok(plan) = read_words(&words) {
        for segment in &plan.segments[1..] {
            restore(case, window, segment.load_end..segment.extent_end);
        }
    }
    words
}

fn clears_a_byte_behind_the_bss(case: &Case, window: &mut [u8]) -> Words {
    let words = second::load(case, window);
    if let Ok(plan) = read_words(&words) {
        for segment in plan.loaded_segments() {
            let offset = (segment.extent_end - case.first) as usize;
            window.get_mut(offset).into_iter().for_each(|byte| *byte = 0);
        }
    }
    words
}

/// Loads, and adds 1 to a field of the block's structure.
fn invents(field: usize, case: &Case, window: &mut [u8]) -> Words {
    let words = second::load(case, window);
    if let Ok(plan) = read_words(&words) {
        let offset = (plan.block.start - case.first) as usize + field;
        put_u32(window, offset, u32_at(window, offset).wrapping_add(1));
    }
    words
}

fn invents_mem_upper(case: &Case, window: &mut [u8]) -> Words {
    invents(structure::MEM_UPPER, case, window)
}

fn invents_mods_count(case: &Case, window: &mut [u8]) -> Words {
    invents(structure::MODS_COUNT, case, window)
}

/// Takes addresses below 0x500, which are not open, for not usable either.
fn tells_no_mem_lower(case: &Case, window: &mut [u8]) -> Words {
    let words = second::load(case, window);
    if let Ok(plan) = read_words(&words) {
        let offset = (plan.block.start - case.first) as usize + structure::MEM_LOWER;
        put_u32(window, offset, 0);
    }
    words
}

fn writes_before_it_refuses(case: &Case, window: &mut [u8]) -> Words {
    let words = second::load(case, window);
    if words[0] >= 16 {
        window.first_mut().into_iter().for_each(|byte| *byte = 0);
    }
    words
}

/// Gives 11, the number of no answer, for 14.
fn gives_eleven(case: &Case, window: &mut [u8]) -> Words {
    let mut words = second::load(case, window);
    if words[0] == Refusal::EntryOutsideLoad.number() {
        words[0] = 11;
    }
    words
}

/// Loads, and tells another count of false headers.
fn miscounts(case: &Case, window: &mut [u8], count: fn(&Case, &Plan) -> u32) -> Words {
    let decision = read_words(&second::load(case, window)).map(|plan| {
        let false_headers = count(case, &plan);
        Plan { false_headers, ..plan }
    });
    words(&decision)
}

fn counts_the_header_in(case: &Case, window: &mut [u8]) -> Words {
    miscounts(case, window, |_, plan| plan.false_headers + 1)
}

fn counts_on_behind_the_header(case: &Case, window: &mut [u8]) -> Words {
    miscounts(case, window, |case, _| {
        let reading = model::read(case).unwrap_or_else(|_| panic!("a load is read"));
        let is_false = |&at: &u64| model::false_header_at(reading.submission.image, at);
        (0..SEARCH_LIMIT as u64).filter(is_false).count() as u32
    })
}

/// Gives 6 no item.
fn counts_in_loads_alone(case: &Case, window: &mut [u8]) -> Words {
    let mut words = second::load(case, window);
    if (Refusal::NoHeader { false_headers: words[1] }).number() == words[0] {
        words[1] = 0;
    }
    words
}

/// Loads as if no module had a ceiling.
fn ignores_ceilings(case: &Case, window: &mut [u8]) -> Words {
    let mut free = case.clone();
    if let Ok(reading) = model::read(case) {
        for index in 0..reading.submission.modules.len() {
            let at = PREFIX + TABLE_ENTRY * index + table_entry::CEILING;
            free.submission[at..][..2].fill(0);
        }
    }
    second::load(&free, window)
}

/// Reads version 1 as version 2, ceilings and all.
fn obeys_ceilings_in_version_1(case: &Case, window: &mut [u8]) -> Words {
    let mut later = case.clone();
    if let Some(version) = later.submission.get_mut(submission::VERSION) {
        *version = if *version == VERSION_1 as u8 { VERSION_2 as u8 } else { *version };
    }
    second::load(&later, window)
}

/// Does a judge find fault with what the loader leaves behind in some case?
fn caught(loader: Loader, is_wrong: fn(&Case, &Outcome) -> bool) -> bool {
    let mut cases = (0..CASES).map(|index| generate::case(1, index));
    cases.any(|case| is_wrong(&case, &run(loader, &case)))
}

/// Holds an outcome against the second loader's.
fn beside_the_second(case: &Case, outcome: &Outcome) -> bool {
    same(case, outcome, &run(second::load, case)).is_err()
}

/// Reads a load or a refusal, without another loader.
fn by_reading(case: &Case, outcome: &Outcome) -> bool {
    sound(case, outcome).is_err()
}

/// Asks the address-by-address model.
fn by_address(case: &Case, outcome: &Outcome) -> bool {
    agrees(case, outcome, SMALL_BOARD).is_err()
}

/// Their loads and refusals show that they are wrong.
const WRONG_BY_THEMSELVES: [(&str, Loader); 13] = [
    ("always_the_same_plan", always_the_same_plan),
    ("never_writes", never_writes),
    ("copies_the_first_module_alone", copies_the_first_module_alone),
    ("loads_the_first_segment_alone", loads_the_first_segment_alone),
    ("tells_the_first_segment_alone", tells_the_first_segment_alone),
    ("leaves_the_zeros_of_later_segments", leaves_the_zeros_of_later_segments),
    ("clears_a_byte_behind_the_bss", clears_a_byte_behind_the_bss),
    ("invents_mods_count", invents_mods_count),
    ("writes_before_it_refuses", writes_before_it_refuses),
    ("gives_eleven", gives_eleven),
    ("counts_the_header_in", counts_the_header_in),
    ("counts_on_behind_the_header", counts_on_behind_the_header),
    ("ignores_ceilings", ignores_ceilings),
];

/// Only another reading of the rules shows that they are wrong.
const WRONG_BESIDE_ANOTHER: [(&str, Loader); 5] = [
    ("refuses_everything", refuses_everything),
    ("invents_mem_upper", invents_mem_upper),
    ("tells_no_mem_lower", tells_no_mem_lower),
    ("counts_in_loads_alone", counts_in_loads_alone),
    ("obeys_ceilings_in_version_1", obeys_ceilings_in_version_1),
];

#[test]
fn comparison_catches_wrong_loaders() {
    for (name, loader) in WRONG_BY_THEMSELVES.into_iter().chain(WRONG_BESIDE_ANOTHER) {
        assert!(caught(loader, beside_the_second), "{name}");
    }
}

#[test]
fn reading_a_load_catches_wrong_loaders() {
    for (name, loader) in WRONG_BY_THEMSELVES {
        assert!(caught(loader, by_reading), "{name}");
    }
}

#[test]
fn the_model_catches_wrong_loaders() {
    for (name, loader) in WRONG_BESIDE_ANOTHER {
        assert!(caught(loader, by_address), "{name}");
    }
}

#[test]
fn none_finds_fault_with_the_second_itself() {
    assert!(!caught(second::load, beside_the_second));
    assert!(!caught(second::load, by_reading));
    assert!(!caught(second::load, by_address));
}

/// Each byte and each word of the load of a submission on a small board.
fn every_change_shows(submission: &[u8]) {
    let memory = [Pair::new(0, 0x1000, RAM), Pair::new(FLOOR, 0x2000, RAM)];
    let case = Case {
        operator: b"line".to_vec(),
        map: map_bytes(&memory),
        window: pattern(0, 0x1005),
        ..review_board::case(submission)
    };
    let right =
        |outcome: &Outcome| sound(&case, outcome).and_then(|()| agrees(&case, outcome, u128::MAX));
    let outcome = run(second::load, &case);
    assert_eq!((outcome.words[0], right(&outcome)), (0, Ok(true)));
    for at in 0..outcome.window.len() {
        let mut other = outcome.clone();
        other.window[at] ^= 1;
        assert!(right(&other).is_err(), "byte {at:X}");
    }
    for at in 0..outcome.words.len() {
        let mut other = outcome.clone();
        other.words[at] ^= 1;
        assert!(right(&other).is_err(), "word {at}");
    }
}

#[test]
fn every_byte_and_word_of_a_load_is_read() {
    every_change_shows(&b1());
    every_change_shows(&e1());
}
