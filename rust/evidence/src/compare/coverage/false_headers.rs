//! Goals of false headers, below the header of a load and where there is no header.

use super::{image_of, Goal};
use crate::input::case::Case;
use crate::loaders::model::{false_header_at, false_headers, Reading};
use crate::rules::limits::{ELF_MARK, HEADER_MAGIC, LAST_HEADER, SEARCH_LIMIT, SHORT_HEADER};
use std::ops::Range;
use viertompu::{Plan, Refusal};

/// The goals of an image without a header, and of one whose header is refused by its flags.
pub fn refusal_goals(case: &Case, refusal: Refusal) -> Vec<Goal> {
    use Refusal::{NoAddressFields, NoHeader, UndefinedBits, UnknownRequest};
    match refusal {
        NoHeader { false_headers } => none_goals(image_of(case), false_headers),
        UnknownRequest | UndefinedBits | NoAddressFields => {
            vec![("flags refused behind a false header", false_headers(image_of(case)) > 0)]
        }
        _ => Vec::new(),
    }
}

fn none_goals(image: &[u8], count: u32) -> Vec<Goal> {
    let at_end = image.len().checked_sub(SHORT_HEADER);
    let is_last = |at: usize| at < LAST_HEADER && false_header_at(image, at as u64);
    vec![
        ("no header and no false one", count == 0),
        ("no header and one false one", count == 1),
        ("no header and several false ones", count > 1),
        ("no header and 2,046 false ones", count == 2046),
        ("no header and a false one in the image's last 12 bytes", at_end.is_some_and(is_last)),
        ("no header and a false one at 8,180", false_header_at(image, LAST_HEADER as u64)),
        ("no header and the magic at 8,184", has_magic(image, LAST_HEADER + 4)),
        ("no header and a false one in another's bytes", in_another(image, 0..SEARCH_LIMIT)),
        ("no header and the magic off the multiples of 4", magic_aside(image, 0..SEARCH_LIMIT)),
    ]
}

/// The goals of a load.
pub fn load_goals(reading: &Reading, plan: &Plan) -> Vec<Goal> {
    let (image, count) = (reading.submission.image, plan.false_headers);
    let header = plan.header_offset as usize;
    let reaches = |back: usize| header >= back && false_header_at(image, (header - back) as u64);
    let mut behind = (header + 4..SEARCH_LIMIT).step_by(4);
    vec![
        ("loaded without a false header", count == 0),
        ("loaded behind one false header", count == 1),
        ("loaded behind several false headers", count > 1),
        ("ELF mark and a false header behind it", image.starts_with(ELF_MARK) && count > 0),
        ("loaded behind a false header in another's bytes", in_another(image, 0..header)),
        ("loaded behind one that reaches into the header", reaches(4) || reaches(8)),
        ("loaded behind the magic off the multiples of 4", magic_aside(image, 0..header)),
        ("loaded before a false header", behind.any(|at| false_header_at(image, at as u64))),
    ]
}

fn has_magic(image: &[u8], at: usize) -> bool {
    image.get(at..).is_some_and(|rest| rest.starts_with(&HEADER_MAGIC.to_le_bytes()))
}

/// Does a false header begin in the 12 bytes of another?
fn in_another(image: &[u8], offsets: Range<usize>) -> bool {
    let is_false = |at: &usize| false_header_at(image, *at as u64);
    let places: Vec<usize> = offsets.step_by(4).filter(is_false).collect();
    places.windows(2).any(|pair| pair[1] - pair[0] < SHORT_HEADER)
}

/// Does the magic stand where no header is looked for?
fn magic_aside(image: &[u8], offsets: Range<usize>) -> bool {
    offsets.into_iter().any(|at| at % 4 != 0 && has_magic(image, at))
}
