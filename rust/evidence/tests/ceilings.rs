//! Versions and ceilings: the version alone changes nothing, and a ceiling moves nothing; every
//! version, every ceiling, and modules at each distance around their ceiling.

use evidence::compare::{common_outcome, same};
use evidence::input::bench_cases::b1;
use evidence::input::case::Case;
use evidence::input::draft::{Draft, Header, Module, Version};
use evidence::input::pair::Pair;
use evidence::input::{generate, review_board};
use evidence::loaders::{model, run, second, Loader, Outcome, PROVED};
use evidence::rules::limits::{
    FULL_HEADER, MIB, PAGE, PAGE_ALIGNED, PREFIX, RAM, TABLE_ENTRY, VERSION_1, VERSION_2, WORD,
};
use evidence::rules::numbers;
use evidence::rules::offsets::{submission, table_entry};
use std::collections::BTreeSet;
use viertompu::read_words;

const CASES: u64 = 20_000;

fn loaders() -> impl Iterator<Item = (&'static str, Loader)> {
    PROVED.into_iter().chain([("second", second::load as Loader)])
}

fn set_version(case: &mut Case, version: u16) {
    case.submission[submission::VERSION..][..2].copy_from_slice(&version.to_le_bytes());
}

fn set_ceiling(case: &mut Case, index: usize, ceiling: u16) {
    let at = PREFIX + TABLE_ENTRY * index + table_entry::CEILING;
    case.submission[at..][..2].copy_from_slice(&ceiling.to_le_bytes());
}

/// The case without ceilings in a version, if its module table is there.
fn without_ceilings(case: &Case, version: u16) -> Option<Case> {
    let count = usize::from(*case.submission.get(submission::MODULE_COUNT)?);
    let mut other = case.clone();
    let table = other.submission.get_mut(PREFIX..PREFIX + TABLE_ENTRY * count)?;
    for entry in table.chunks_exact_mut(TABLE_ENTRY) {
        entry[table_entry::CEILING..].fill(0);
    }
    set_version(&mut other, version);
    Some(other)
}

#[test]
fn both_versions_give_one_answer_without_ceilings() {
    let mut given = BTreeSet::new();
    for case in (0..CASES).map(|index| generate::case(1, index)) {
        let cases = [VERSION_1, VERSION_2].map(|version| without_ceilings(&case, version));
        if let [Some(one), Some(two)] = cases {
            for (name, loader) in loaders() {
                let outcome = run(loader, &one);
                same(&one, &outcome, &run(loader, &two))
                    .unwrap_or_else(|what| panic!("{}: {name}: {what}", case.name));
                given.insert(outcome.words[0]);
            }
        }
    }
    assert!(numbers().all(|number| given.contains(&number)), "{given:?}");
}

#[test]
fn a_ceiling_moves_nothing() {
    let has_ceiling = |case: &Case| {
        model::read(case)
            .is_ok_and(|read| read.submission.modules.iter().any(|m| m.ceiling.is_some()))
    };
    let mut loaded = 0;
    for case in (0..CASES).map(|index| generate::case(1, index)).filter(has_ceiling) {
        let free = without_ceilings(&case, VERSION_2).expect("it has a module table");
        for (name, loader) in loaders() {
            let outcome = run(loader, &case);
            if outcome.words[0] == 0 {
                same(&case, &outcome, &run(loader, &free))
                    .unwrap_or_else(|what| panic!("{}: {name}: {what}", case.name));
                loaded += 1;
            }
        }
    }
    assert!(loaded > 1000, "{loaded} loaded");
}

/// What all loaders leave behind for B1 in a version, its module under a ceiling.
fn b1_outcome(version: u16, ceiling: u16) -> Outcome {
    let mut case = review_board::case(&b1());
    set_version(&mut case, version);
    set_ceiling(&mut case, 0, ceiling);
    let outcome = run(second::load, &case);
    for (name, loader) in PROVED {
        same(&case, &run(loader, &case), &outcome)
            .unwrap_or_else(|what| panic!("version {version}, ceiling {ceiling}: {name}: {what}"));
    }
    outcome
}

#[test]
fn versions_1_and_2_alone_are_read() {
    let passes = |version: &u16| b1_outcome(*version, 0).words[0] != 1;
    assert_eq!((0..=u16::MAX).filter(passes).collect::<Vec<_>>(), [1, 2]);
}

#[test]
fn a_ceiling_of_1_mib_alone_leaves_no_room_above_1_mib() {
    let b1 = b1_outcome(VERSION_1, 0);
    for ceiling in 0..=u16::MAX {
        let outcome = b1_outcome(VERSION_2, ceiling);
        if ceiling == 1 {
            assert_eq!(outcome.words[..2], [16, 0]);
        } else {
            assert!(outcome == b1, "under {ceiling} MiB");
        }
    }
}

/// A kernel that ends at an address, and behind it a module under a ceiling of 2 MiB.
fn behind(end: u64, flags: u32, length: u64) -> Case {
    let first = (end - FULL_HEADER as u64) as u32;
    let module = Module { data: vec![0x5A; length as usize], ceiling: 2, ..Module::default() };
    let room = 4 * PAGE;
    let draft = Draft {
        version: Version::Two,
        filler: vec![0; FULL_HEADER],
        header: Header::loading_to(first, flags),
        modules: vec![module],
        pairs: vec![Pair::new(first.into(), room, RAM)],
        first,
        window: room as usize,
        ..Draft::default()
    };
    draft.case(format!("{length} bytes behind {end:X}"))
}

/// A module on a boundary behind each of the ends stands there where it ends at or below 2 MiB.
fn stands_under_2_mib(flags: u32, boundary: u64, lengths: &[u64]) {
    for end in 2 * MIB - boundary - 16..=2 * MIB + 4 {
        for &length in lengths {
            let case = behind(end, flags, length);
            let outcome = common_outcome(&case).unwrap_or_else(|e| panic!("{}: {e}", case.name));
            let start = end.next_multiple_of(boundary);
            let place = read_words(&outcome.words).map(|plan| u64::from(plan.modules[0].start));
            let due = (start + length <= 2 * MIB).then_some(start);
            assert_eq!(place.ok(), due, "{}", case.name);
            assert!(due.is_some() || outcome.words[..2] == [16, 0], "{}", case.name);
        }
    }
}

#[test]
fn a_module_on_a_word_ends_at_or_below_its_ceiling() {
    stands_under_2_mib(0, WORD, &[1, 2, 3, 4, 5, 7, 8, 9, 12, 16, 17]);
}

#[test]
fn a_module_on_a_page_ends_at_or_below_its_ceiling() {
    stands_under_2_mib(PAGE_ALIGNED, PAGE, &[1, PAGE - 1, PAGE, PAGE + 1]);
}
