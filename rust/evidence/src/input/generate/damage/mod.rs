//! Ways to break a sound input, most of them made for one number. The loaders decide what it gives.

mod elf;
mod image;
mod lent;

use crate::input::case::Case;
use crate::input::draft::{mark_and_version, overlay, Draft, Version};
use crate::input::rng::Rng;
use crate::rules::limits::PREFIX;
use Damage::{Bytes, Draft as InDraft};

/// A way to break a draft, or the bytes made from it.
#[derive(Clone, Copy)]
pub enum Damage {
    Draft(fn(&mut Rng, &mut Draft)),
    Bytes(fn(&mut Rng, &mut Case)),
}

/// Checks 1 and 2: the submission's format.
const FORMAT: &[Damage] =
    &[Bytes(lent::not_a_submission), InDraft(lent::bad_parts), Bytes(lent::bad_lengths)];

/// Checks 3 to 5: what is lent beside the submission.
const BESIDE: &[Damage] = &[
    InDraft(lent::bad_operator_line),
    InDraft(lent::window_past_top),
    InDraft(lent::bad_pairs),
    Bytes(lent::bad_map),
];

/// Checks 6 to 14 and 25 of an image with address fields.
const IMAGE: &[Damage] = &[
    InDraft(image::no_header),
    InDraft(image::unknown_request),
    InDraft(image::undefined_bits),
    InDraft(image::no_address_fields),
    InDraft(image::header_cut_off),
    InDraft(image::load_before_image),
    InDraft(image::load_past_image),
    InDraft(image::bss_below_load_end),
    InDraft(image::entry_outside_load),
];

/// Checks 6 to 8 and 25, 18 to 20 and 14 of an ELF image, and its shortest form.
const ELF: &[Damage] = &[
    InDraft(image::no_header),
    InDraft(image::unknown_request),
    InDraft(image::undefined_bits),
    InDraft(elf::header_inside),
    InDraft(elf::no_mark),
    InDraft(elf::shortest),
    InDraft(elf::image_under_52),
    InDraft(elf::another_kind),
    InDraft(elf::another_kind),
    InDraft(elf::table_beyond_image),
    InDraft(elf::over_16_entries),
    InDraft(elf::no_segment),
    InDraft(elf::file_bytes_outside),
    InDraft(elf::file_size_above),
    InDraft(elf::segments_overlap),
    InDraft(elf::segments_overlap),
    InDraft(elf::entry_outside_load),
    InDraft(elf::entry_outside_load),
];

/// Damages for a draft up to check 15. What is lent beside an ELF image is broken seldom.
pub fn all(draft: &Draft) -> Vec<Damage> {
    if draft.is_elf() {
        let not_open = [InDraft(elf::kernel_not_open); 2];
        [FORMAT, BESIDE, ELF, ELF, ELF, &not_open.repeat(3)].concat()
    } else {
        [FORMAT, BESIDE, IMAGE, &[InDraft(image::kernel_not_open)]].concat()
    }
}

/// Damages of a draft's submission alone.
pub fn of_submission(draft: &Draft) -> Vec<Damage> {
    if draft.is_elf() {
        let of_room = [InDraft(elf::segment_at_the_end), InDraft(elf::long_segment)];
        [FORMAT, ELF, &of_room.repeat(2)].concat()
    } else {
        let of_room = [InDraft(image::kernel_at_the_end), InDraft(image::long_bss)];
        [FORMAT, IMAGE, &of_room.repeat(2)].concat()
    }
}

/// A case with some of the damages for its draft, those of the draft before those of the bytes.
pub fn damaged(
    rng: &mut Rng,
    mut draft: Draft,
    damages: fn(&Draft) -> Vec<Damage>,
    times: usize,
    name: String,
) -> Case {
    let from = damages(&draft);
    let chosen: Vec<Damage> = (0..times).map(|_| rng.pick(&from)).collect();
    for damage in &chosen {
        if let InDraft(apply) = damage {
            apply(rng, &mut draft);
        }
    }
    let mut case = draft.case(name);
    for damage in &chosen {
        match damage {
            Bytes(apply) if case.submission.len() >= PREFIX => apply(rng, &mut case),
            _ => {}
        }
    }
    case
}

/// Moves one edge of the board by a little.
pub fn nudge(rng: &mut Rng, draft: &mut Draft) {
    let by = rng.range(1, 4);
    let index = rng.below(draft.pairs.len() as u64) as usize;
    let pair = &mut draft.pairs[index];
    match rng.below(6) {
        0 => draft.window = draft.window.saturating_sub(by as usize),
        1 => draft.first = draft.first.saturating_add(by as u32),
        2 => pair.base = pair.base.wrapping_add(by),
        3 => pair.base = pair.base.wrapping_sub(by),
        4 => pair.length = pair.length.wrapping_sub(by),
        _ => pair.kind = rng.pick(&[0, 1, 2, 0x0101, 0x0100_0001]),
    }
}

/// Changes bytes without regard to their meaning.
pub fn scramble(rng: &mut Rng, case: &mut Case) {
    if rng.one_in(16) {
        case.submission = garbage(rng);
        return;
    }
    for _ in 0..rng.range(1, 3) {
        let near = case.submission.len().min(PREFIX + 160);
        let part = match rng.below(4) {
            0 => case.submission.get_mut(3..PREFIX),
            1 => case.submission.get_mut(PREFIX..near),
            2 => Some(&mut case.submission[..]),
            _ => Some(&mut case.map[..]),
        };
        if let Some(part) = part.filter(|part| !part.is_empty()) {
            let at = rng.below(part.len() as u64) as usize;
            let (flipped, any) = (part[at] ^ (1 << rng.below(8)), rng.next_u64() as u8);
            part[at] = rng.pick(&[flipped, flipped, any, 0, 1, 0xFF]);
        }
    }
}

/// Random bytes, mostly behind a mark and a version.
fn garbage(rng: &mut Rng) -> Vec<u8> {
    let length = rng.below(200) as usize;
    let mut bytes = rng.bytes(length);
    if rng.below(4) > 0 {
        let version = rng.pick(&[Version::One, Version::Two]);
        overlay(&mut bytes, 0, &mark_and_version(version));
    }
    bytes
}
