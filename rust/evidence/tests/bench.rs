//! The rules' bench cases and the answers' borders through every loader.

use evidence::compare::by_address::agrees;
use evidence::compare::{same, sound};
use evidence::input::bench_cases::{bench, borders, BenchCase};
use evidence::input::case::Case;
use evidence::input::draft::Header;
use evidence::loaders::{run, second, Outcome, PROVED};
use evidence::rules::{numbers, words};

/// The outcome is what the rules name, and right by itself.
fn meets(bench: &BenchCase, outcome: &Outcome) -> Result<(), String> {
    let expected = Outcome { words: words(&bench.decision), window: outcome.window.clone() };
    same(&bench.case, outcome, &expected)?;
    for (address, bytes) in &bench.memory {
        let offset = (address - bench.case.first) as usize;
        if outcome.window[offset..offset + bytes.len()] != bytes[..] {
            return Err(format!("other bytes at {address:08X}"));
        }
    }
    sound(&bench.case, outcome)?;
    agrees(&bench.case, outcome, 1 << 25).map(|_| ())
}

fn check_all(cases: &[BenchCase]) {
    for bench in cases {
        let outcome = run(second::load, &bench.case);
        meets(bench, &outcome).unwrap_or_else(|e| panic!("{}: second: {e}", bench.case.name));
        for (name, loader) in PROVED {
            let other = run(loader, &bench.case);
            meets(bench, &other)
                .and_then(|()| same(&bench.case, &other, &outcome))
                .unwrap_or_else(|e| panic!("{}: {name}: {e}", bench.case.name));
        }
    }
}

#[test]
fn bench_cases_give_what_the_rules_name() {
    check_all(&bench());
}

#[test]
fn borders_give_what_the_rules_name() {
    check_all(&borders());
}

#[test]
fn every_number_has_a_case() {
    let cases: Vec<BenchCase> = bench().into_iter().chain(borders()).collect();
    for number in numbers() {
        let has = cases.iter().any(|case| words(&case.decision)[0] == number);
        assert!(has, "no case for {number}");
    }
}

#[test]
fn checksums_are_those_of_the_rules() {
    assert_eq!(Header::checksum(0), 0xE452_4FFE);
    assert_eq!(Header::checksum(0x1_0001), 0xE451_4FFD);
}

#[test]
fn a_case_reads_back_as_printed() {
    for bench in bench() {
        let read: Case = bench.case.to_string().parse().expect("a printed case");
        assert_eq!(read, bench.case);
    }
}
