//! The generator itself: a case depends on its seed and index alone, and its window holds no zero.

use evidence::compare::printed::{printed, MAX_INPUT};
use evidence::input::case::Case;
use evidence::input::generate;
use evidence::loaders::second;
use evidence::rules::limits::ELF_MARK;
use evidence::rules::numbers;

#[test]
fn a_case_depends_on_seed_and_index_alone() {
    let submissions = |seed: u64| -> Vec<_> {
        let cases = (0..500).map(|index| generate::case(seed, index));
        cases.map(|case| case.submission).collect()
    };
    assert_eq!(generate::case(7, 123), generate::case(7, 123));
    assert_eq!(submissions(7), submissions(7));
    assert_ne!(submissions(7), submissions(8));
}

#[test]
fn windows_hold_no_zero() {
    for index in 0..2000 {
        assert!(!generate::case(3, index).window.contains(&0));
    }
}

#[test]
fn about_a_third_of_the_images_are_elf() {
    let begins = |case: &Case| case.submission.windows(4).take(200).any(|w| w == ELF_MARK);
    let count = (0..3000).map(|index| generate::case(1, index)).filter(|c| begins(c)).count();
    assert!((900..1200).contains(&count), "{count} of 3000");
}

#[test]
fn submissions_for_the_review_program_give_most_numbers() {
    let submissions: Vec<_> = (0..300).map(|i| generate::review_submission(1, i)).collect();
    let texts: Vec<_> = submissions.iter().map(|s| printed(second::load, s)).collect();
    assert!(submissions.iter().any(|s| s.len() > MAX_INPUT));
    let begin = |with: &str| texts.iter().any(|text| text.starts_with(with));
    assert!(begin("kernel "));
    // A load is no refusal, and the operator's line, the window and the map are fixed.
    for number in numbers().filter(|n| ![0, 3, 4, 5].contains(n)) {
        assert!(begin(&format!("refused {number} ")), "no {number}");
    }
}
