//! Mending a checksum: worked and generated images through every mender, menders that are wrong on
//! purpose, and loads of what was mended.

use evidence::compare::coverage::MendCoverage;
use evidence::compare::mending::{same, sound};
use evidence::input::bench_cases::images_to_mend;
use evidence::input::draft::Header;
use evidence::input::generate;
use evidence::loaders::mending::{by_second, run, Mender, Outcome, OTHERS};
use evidence::loaders::{proved, second, PROVED};
use evidence::rules::bytes::{put_u32, u32_at};
use evidence::rules::limits::{HEADER_MAGIC, PREFIX, SEARCH_LIMIT, SHORT_HEADER, TABLE_ENTRY};
use evidence::rules::mend_words;
use evidence::rules::offsets::header::{CHECKSUM, FLAGS};
use evidence::rules::offsets::submission::{IMAGE_LENGTH, MODULE_COUNT};
use std::ops::Range;
use viertompu::{MendWords, NoMagic, Refusal, MEND_WORDS};

const IMAGES: u64 = 200_000;
const CASES: u64 = 20_000;

/// All menders agree on an image; a second run finds a header, or refuses again, and changes nothing.
fn check(image: &[u8], outcome: &Outcome) -> Result<(), String> {
    sound(image, outcome)?;
    for (name, mender) in OTHERS {
        same(&run(mender, image), outcome).map_err(|what| format!("{name} and second: {what}"))?;
    }
    let again = Outcome { words: [0; MEND_WORDS], ..outcome.clone() };
    same(&run(proved::mend, &outcome.image), &again).map_err(|what| format!("again: {what}"))
}

#[test]
fn worked_images_give_what_the_rule_names() {
    for case in images_to_mend() {
        let outcome = run(by_second, &case.image);
        assert_eq!((outcome.number, outcome.words), mend_words(&case.answer), "{}", case.name);
        check(&case.image, &outcome).unwrap_or_else(|what| panic!("{}: {what}", case.name));
    }
}

#[test]
fn generated_images_reach_every_goal_and_all_menders_agree() {
    let mut coverage = MendCoverage::default();
    for index in 0..IMAGES {
        let image = generate::image(1, index);
        let outcome = run(by_second, &image);
        coverage.record(&image, &outcome);
        check(&image, &outcome)
            .unwrap_or_else(|what| panic!("generate::image(1, {index}): {what}"));
    }
    print!("{coverage}");
    assert_eq!(coverage.gaps(), [""; 0]);
}

#[test]
fn the_first_8192_bytes_alone_give_the_same() {
    let images = (0..IMAGES / 20).map(|index| generate::image(2, index));
    let mut mended = 0;
    for image in images.filter(|image| image.len() > SEARCH_LIMIT) {
        let mut whole = run(proved::mend, &image);
        whole.image.truncate(SEARCH_LIMIT);
        assert_eq!(run(proved::mend, &image[..SEARCH_LIMIT]), whole);
        mended += whole.words[0];
    }
    assert!(mended > 100, "{mended} mended");
}

/// Where the image lies in a submission whose format is in order.
fn image_range(submission: &[u8]) -> Range<usize> {
    let start = PREFIX + TABLE_ENTRY * usize::from(submission[MODULE_COUNT]);
    start..start + u32_at(submission, IMAGE_LENGTH) as usize
}

/// An image that 6 refuses has its header where it was mended, or keeps its 6 where it has no magic.
#[test]
fn what_was_mended_is_no_longer_refused_with_6() {
    let mut mended = 0;
    for mut case in (0..CASES).map(|index| generate::case(1, index)) {
        let words = second::load(&case, &mut case.window.clone());
        if words[0] != (Refusal::NoHeader { false_headers: 0 }).number() {
            continue;
        }
        let image = image_range(&case.submission);
        let [is_mended, offset, ..] = proved::mend(&mut case.submission[image]).1;
        for (name, loader) in PROVED {
            let after = loader(&case, &mut case.window.clone());
            assert_eq!(after[0] != words[0], is_mended == 1, "{}: {name}", case.name);
            assert!(after[0] != 0 || after[2] == offset, "{}: {name}", case.name);
        }
        mended += is_mended;
    }
    assert!(mended > 100, "{mended} mended");
}

/// The offsets of the magics with room for a header.
fn with_room(image: &[u8]) -> Vec<usize> {
    let end = (image.len().min(SEARCH_LIMIT) + 1).saturating_sub(SHORT_HEADER);
    (0..end).step_by(4).filter(|&at| u32_at(image, at) == HEADER_MAGIC).collect()
}

/// Writes a checksum at an offset, and tells of it.
fn write(image: &mut [u8], offset: usize, at: usize, new: u32) -> (u32, MendWords) {
    let old = u32_at(image, offset + CHECKSUM);
    put_u32(image, at, new);
    (0, [1, offset as u32, old, new])
}

/// Mends as the second loader does, but otherwise where it mends.
fn otherwise(
    image: &mut [u8],
    mend: fn(&mut [u8], usize, u32) -> (u32, MendWords),
) -> (u32, MendWords) {
    match run(by_second, image) {
        Outcome { words: [1, offset, _, new], .. } => mend(image, offset as usize, new),
        Outcome { number, words, .. } => (number, words),
    }
}

fn mends_where_a_header_stands(image: &mut [u8]) -> (u32, MendWords) {
    match with_room(image).first() {
        Some(&at) => {
            let right = Header::checksum(u32_at(image, at + FLAGS));
            write(image, at, at + CHECKSUM, right)
        }
        None => by_second(image),
    }
}

fn takes_the_last_magic(image: &mut [u8]) -> (u32, MendWords) {
    otherwise(image, |image, offset, _| {
        let last = with_room(image).last().copied().unwrap_or(offset);
        let right = Header::checksum(u32_at(image, last + FLAGS));
        write(image, last, last + CHECKSUM, right)
    })
}

fn leaves_the_flags_out(image: &mut [u8]) -> (u32, MendWords) {
    otherwise(image, |image, offset, _| {
        write(image, offset, offset + CHECKSUM, Header::checksum(0))
    })
}

fn writes_at_the_magic(image: &mut [u8]) -> (u32, MendWords) {
    otherwise(image, |image, offset, new| write(image, offset, offset, new))
}

fn never_writes(image: &mut [u8]) -> (u32, MendWords) {
    by_second(&mut image.to_vec())
}

fn touches_the_image_on_26(image: &mut [u8]) -> (u32, MendWords) {
    let answer = by_second(image);
    if let (NoMagic::NUMBER, Some(byte)) = (answer.0, image.first_mut()) {
        *byte ^= 1;
    }
    answer
}

fn tells_mended_and_found_alike(image: &mut [u8]) -> (u32, MendWords) {
    let (number, [_, offset, old, new]) = by_second(image);
    (number, [0, offset, old, new])
}

fn never_refuses(image: &mut [u8]) -> (u32, MendWords) {
    (0, by_second(image).1)
}

/// Menders that are wrong on purpose.
const WRONG: [(&str, Mender); 8] = [
    ("mends where a header stands", mends_where_a_header_stands),
    ("takes the last magic", takes_the_last_magic),
    ("leaves the flags out", leaves_the_flags_out),
    ("writes at the magic", writes_at_the_magic),
    ("never writes", never_writes),
    ("touches the image on 26", touches_the_image_on_26),
    ("tells mended and found alike", tells_mended_and_found_alike),
    ("never refuses", never_refuses),
];

/// Is a mender caught by a comparison of some image's outcome?
fn is_caught(mender: Mender, compare: fn(&[u8], &Outcome) -> Result<(), String>) -> bool {
    let images = (0..2000).map(|index| generate::image(1, index));
    images.into_iter().any(|image| compare(&image, &run(mender, &image)).is_err())
}

#[test]
fn wrong_menders_are_caught_beside_the_second() {
    let beside = |image: &[u8], outcome: &Outcome| same(outcome, &run(by_second, image));
    for (name, mender) in WRONG {
        assert!(is_caught(mender, beside), "{name}");
    }
    assert!(!is_caught(proved::mend, beside));
}

#[test]
fn wrong_menders_are_caught_by_reading() {
    for (name, mender) in WRONG {
        assert!(is_caught(mender, sound), "{name}");
    }
    assert!(!is_caught(proved::mend, sound));
}
