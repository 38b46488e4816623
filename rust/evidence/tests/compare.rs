//! Generated inputs through the second loader, held against the address-by-address model on small
//! boards, against a reading of the finished load, and against every other loader there is.
//!
//! Prints how often each number came and each goal was reached, and fails where that is too rare
//! or two answers differ.
//! `VIERTOMPU_SEED` and `VIERTOMPU_CASES` choose another run.

use evidence::compare::by_address::{agrees, SMALL_BOARD};
use evidence::compare::coverage::Coverage;
use evidence::compare::{same, sound};
use evidence::input::case::Case;
use evidence::input::generate;
use evidence::loaders::{run, second, PROVED};
use evidence::rules::numbers;
use std::collections::BTreeMap;
use std::env;
use std::fs;
use std::panic::{catch_unwind, AssertUnwindSafe};
use std::path::Path;
use std::process::ExitCode;
use std::time::Instant;

const SEED: u64 = 1;
const CASES: u64 = 200_000;
/// Agreements with the address-by-address model demanded for each number.
const LEAST_AGREEMENTS: u64 = 100;

fn main() -> ExitCode {
    let seed = setting("VIERTOMPU_SEED", SEED);
    let cases = setting("VIERTOMPU_CASES", CASES);
    let began = Instant::now();
    let mut coverage = Coverage::default();
    let mut agreed: BTreeMap<u32, u64> = BTreeMap::new();
    for index in 0..cases {
        let case = generate::case(seed, index);
        let checked = catch_unwind(AssertUnwindSafe(|| check(&case, &mut coverage, &mut agreed)));
        if let Err(what) = checked.unwrap_or(Err("a panic".to_string())) {
            return differs(&case, &what);
        }
    }
    print!("{coverage}");
    println!("  agreed with the address-by-address model: {agreed:?}");
    let names = PROVED.map(|(name, _)| name);
    println!("  loaders held against the second: {names:?}");
    println!("  {:.1} s", began.elapsed().as_secs_f64());
    verdict(coverage.gaps(), &agreed, cases)
}

fn setting(name: &str, default: u64) -> u64 {
    match env::var(name) {
        Ok(text) => text.parse().unwrap_or_else(|_| panic!("{name} is no number")),
        Err(_) => default,
    }
}

/// Everything that must hold of one case.
fn check(
    case: &Case,
    coverage: &mut Coverage,
    agreed: &mut BTreeMap<u32, u64>,
) -> Result<(), String> {
    let outcome = run(second::load, case);
    coverage.record(case, &outcome);
    sound(case, &outcome)?;
    if agrees(case, &outcome, SMALL_BOARD)? {
        *agreed.entry(outcome.words[0]).or_default() += 1;
    }
    for (name, loader) in PROVED {
        let other = run(loader, case);
        same(case, &other, &outcome).map_err(|what| format!("{name} and second: {what}"))?;
    }
    Ok(())
}

/// Keeps the case and says how to run it again.
fn differs(case: &Case, what: &str) -> ExitCode {
    let name = format!("{}.case", case.name.replace(' ', "-"));
    let path = Path::new(env!("CARGO_TARGET_TMPDIR")).join(name);
    fs::write(&path, case.to_string()).expect("the case can be kept");
    println!("{}: {what}", case.name);
    println!("run it again: cargo run --bin case -- {}", path.display());
    ExitCode::FAILURE
}

fn verdict(mut gaps: Vec<String>, agreed: &BTreeMap<u32, u64>, cases: u64) -> ExitCode {
    let least = LEAST_AGREEMENTS * cases / CASES;
    for number in numbers() {
        if agreed.get(&number).copied().unwrap_or(0) < least {
            gaps.push(format!("number {number} address by address"));
        }
    }
    for gap in &gaps {
        println!("coverage: {gap}");
    }
    if gaps.is_empty() {
        println!("all agree");
        ExitCode::SUCCESS
    } else {
        ExitCode::FAILURE
    }
}
