//! Each refusal has the number and the sentence of the rules.

use std::fs;
use viertompu::{NoMagic, Refusal};

const RULES: &str = concat!(env!("CARGO_MANIFEST_DIR"), "/../../docs/RULES.md");
/// Behind the last number of the rules.
const NUMBERS: u32 = 1000;

/// The sentence of a refusal in the table of answers.
fn sentence(rules: &str, number: u32) -> Option<&str> {
    let rows = rules.lines().filter_map(|line| line.strip_prefix(&format!("| {number} | ")));
    rows.filter_map(|row| row.strip_suffix(" |")).find(|sentence| !sentence.contains('|'))
}

#[test]
fn a_refusal_displays_as_its_sentence() {
    let rules = fs::read_to_string(RULES).expect("the rules can be read");
    for number in 1..NUMBERS {
        let displayed = match number {
            NoMagic::NUMBER => Some(NoMagic.to_string()),
            _ => Refusal::of_number(number, 0).map(|refusal| refusal.to_string()),
        };
        assert_eq!(displayed.as_deref(), sentence(&rules, number), "{number}");
    }
}

#[test]
fn a_refusal_keeps_its_number_and_its_item() {
    for refusal in (0..NUMBERS).filter_map(|number| Refusal::of_number(number, 7)) {
        let has_item = matches!(refusal.number(), 6 | 16);
        assert_eq!(refusal.item(), if has_item { 7 } else { 0 });
        assert_eq!(Refusal::of_number(refusal.number(), refusal.item()), Some(refusal));
    }
}
