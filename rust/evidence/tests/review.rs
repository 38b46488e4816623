//! What the review program prints, by the second loader and by the compiled program.

use evidence::compare::printed::{printed, MAX_INPUT};
use evidence::input::bench_cases::{b1, e1};
use evidence::input::generate::review_submission;
use evidence::loaders::second;
use std::fs;
use std::io::Write;
use std::path::Path;
use std::process::{Command, Stdio};

const SAMPLES: &str = concat!(env!("CARGO_MANIFEST_DIR"), "/../../samples");
const PROGRAM: &str = concat!(env!("CARGO_MANIFEST_DIR"), "/../../crates/review/out/review");

#[test]
fn b1_and_e1_are_samples() {
    let sample = |name: &str| fs::read(Path::new(SAMPLES).join(name)).expect("it can be read");
    assert_eq!(sample("b1.ksb"), b1());
    assert_eq!(sample("elf.ksb"), e1());
}

#[test]
fn samples_print_what_stands_beside_them() {
    let entries = fs::read_dir(SAMPLES).expect("the samples can be listed");
    let paths = entries.map(|entry| entry.expect("a sample has a path").path());
    for path in paths.filter(|path| path.extension().is_some_and(|e| e == "ksb")) {
        let submission = fs::read(&path).expect("a sample can be read");
        let text = fs::read_to_string(path.with_extension("txt")).expect("a text beside it");
        assert_eq!(printed(second::load, &submission), text, "{}", path.display());
    }
}

#[test]
fn a_refusal_prints_one_line() {
    assert_eq!(printed(second::load, b""), "refused 1 0\n");
}

#[test]
fn the_limit_of_the_input_is_12288_bytes() {
    assert_eq!(printed(second::load, &[0; MAX_INPUT]), "refused 1 0\n");
    let over = printed(second::load, &[0; MAX_INPUT + 1]);
    assert_eq!(over, "input over 12288 bytes\n");
}

/// The compiled program's output; it may end before it has read everything.
fn printed_by_program(submission: &[u8]) -> String {
    let mut program = Command::new(PROGRAM)
        .stdin(Stdio::piped())
        .stdout(Stdio::piped())
        .stderr(Stdio::piped())
        .spawn()
        .expect("the review program starts: ./review builds it");
    let mut input = program.stdin.take().expect("its input is a pipe");
    let _ = input.write_all(submission);
    drop(input);
    let done = program.wait_with_output().expect("the program ends");
    assert!(done.status.success(), "it ends well");
    assert!(done.stderr.is_empty(), "something on standard error");
    String::from_utf8(done.stdout).expect("the output is text")
}

#[test]
fn the_program_prints_what_the_second_loader_says() {
    let fixed = [b1(), e1(), Vec::new(), vec![0; MAX_INPUT], vec![0; MAX_INPUT + 1]];
    let generated = (0..300).map(|index| review_submission(1, index));
    for submission in fixed.into_iter().chain(generated) {
        assert_eq!(printed_by_program(&submission), printed(second::load, &submission));
    }
}
