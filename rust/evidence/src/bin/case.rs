//! Runs one case by itself: `case FILE`, or `case SEED INDEX` for a generated one, which is also
//! printed in the form that FILE takes.

use evidence::compare::by_address::agrees;
use evidence::compare::{same, sound};
use evidence::input::case::Case;
use evidence::input::generate;
use evidence::loaders::{run, second, Outcome, PROVED};
use std::env;
use std::fs;
use std::process::ExitCode;

fn main() -> ExitCode {
    let arguments: Vec<String> = env::args().skip(1).collect();
    match read(&arguments) {
        Ok(case) if report(&case) => ExitCode::SUCCESS,
        Ok(_) => ExitCode::FAILURE,
        Err(what) => {
            eprintln!("{what}\nusage: case FILE | case SEED INDEX");
            ExitCode::from(2)
        }
    }
}

fn read(arguments: &[String]) -> Result<Case, String> {
    let number = |text: &String| text.parse().map_err(|_| format!("{text} is no number"));
    match arguments {
        [file] => fs::read_to_string(file).map_err(|e| format!("{file}: {e}"))?.parse(),
        [seed, index] => {
            let case = generate::case(number(seed)?, number(index)?);
            print!("{case}");
            Ok(case)
        }
        _ => Err("one case is run at a time".to_string()),
    }
}

/// Prints every loader's answer; false where something is wrong.
fn report(case: &Case) -> bool {
    let outcome = run(second::load, case);
    show("second", &outcome);
    let mut fine = told("second by itself", sound(case, &outcome));
    match agrees(case, &outcome, 1 << 32) {
        Ok(false) => println!("the board is too large to be placed on address by address"),
        other => fine &= told("second and address by address", other.map(|_| ())),
    }
    for (name, loader) in PROVED {
        let other = run(loader, case);
        show(name, &other);
        fine &= told(name, same(case, &other, &outcome));
    }
    fine
}

fn show(name: &str, outcome: &Outcome) {
    println!("{name}: number {} item {}", outcome.words[0], outcome.words[1]);
    for (row, words) in outcome.words.chunks(8).enumerate() {
        let words: Vec<String> = words.iter().map(|word| format!("{word:08X}")).collect();
        println!("  {:2}  {}", 8 * row, words.join(" "));
    }
}

fn told(name: &str, result: Result<(), String>) -> bool {
    match &result {
        Ok(()) => println!("{name}: agreed"),
        Err(what) => println!("{name}: {what}"),
    }
    result.is_ok()
}
