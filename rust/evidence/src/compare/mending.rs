//! What holds menders against each other, and each against the rule.

use crate::loaders::mending::Outcome;
use crate::loaders::model::{false_header_at, false_headers, header_offset};
use crate::rules::bytes::u32_at;
use crate::rules::mend_words;
use crate::rules::offsets::header::CHECKSUM;
use viertompu::{read_mend_words, Mending, NoMagic};

/// Says where two mends of an image first differ.
pub fn same(one: &Outcome, other: &Outcome) -> Result<(), String> {
    let answers = [one, other].map(|outcome| (outcome.number, outcome.words));
    if answers[0] != answers[1] {
        return Err(format!("{:X?} and {:X?}", answers[0], answers[1]));
    }
    if one.image != other.image {
        let both = one.image.iter().zip(&other.image);
        let offset = both.take_while(|(a, b)| a == b).count();
        return Err(format!("the images differ at {offset}"));
    }
    Ok(())
}

/// Is the mend of an image right by itself? Each answer is given where it belongs; what was mended is
/// found and told, and no other byte changed; where nothing was mended no byte did.
pub fn sound(before: &[u8], outcome: &Outcome) -> Result<(), String> {
    let answer = read_mend_words(outcome.number, &outcome.words);
    if mend_words(&answer) != (outcome.number, outcome.words) {
        return Err("stray words".into());
    }
    let due = (header_offset(before).is_some(), false_headers(before) > 0);
    match answer {
        Ok(Mending::HeaderFound) if !due.0 => Err("it has no header".into()),
        Ok(Mending::Mended { .. }) if due != (false, true) => Err("nothing is to be mended".into()),
        Err(NoMagic) if due != (false, false) => Err("it is not to be refused".into()),
        Ok(Mending::Mended { offset, old, new }) => {
            changed(before, &outcome.image, offset as usize, [old, new])
        }
        _ if outcome.image != before => Err("the image changed".into()),
        _ => Ok(()),
    }
}

/// The checksum at the lowest false header became the one that makes it a header, and nothing else did.
fn changed(before: &[u8], after: &[u8], offset: usize, checksums: [u32; 2]) -> Result<(), String> {
    if (0..offset).any(|at| false_header_at(before, at as u64)) {
        return Err("a lower magic is left".into());
    }
    if header_offset(after) != Some(offset as u64) {
        return Err(format!("no header is found at {offset}"));
    }
    let checksum = offset + CHECKSUM;
    if [before, after].map(|image| u32_at(image, checksum)) != checksums {
        return Err("other checksums".into());
    }
    let around = |image: &[u8]| [&image[..checksum], &image[checksum + 4..]].concat();
    if around(before) != around(after) {
        return Err("another byte changed".into());
    }
    Ok(())
}
