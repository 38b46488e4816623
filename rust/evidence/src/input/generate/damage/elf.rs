//! Damages of an ELF image (checks 25, 8, 18 to 20, 14, 15 to 17).

use super::super::elf::wild_header;
use crate::input::bench_cases::shortest_elf;
use crate::input::draft::Draft;
use crate::input::elf::{Elf, ProgramHeader};
use crate::input::pair::Pair;
use crate::input::rng::Rng;
use crate::rules::limits::{
    ADDRESS_SPACE, ELF_HEADER, MAX_PAIRS, MAX_PROGRAM_HEADERS, PROGRAM_HEADER, PT_LOAD,
    SHORT_HEADER,
};

/// 25: a header in the ELF header. `e_phentsize` is the upper half of its checksum, which takes
/// undefined bits.
pub fn header_inside(_: &mut Rng, draft: &mut Draft) {
    draft.header.offset = 32;
    draft.header.flags |= 0xE432_0000;
}

/// 8: a mark with a wrong byte, or none.
pub fn no_mark(rng: &mut Rng, draft: &mut Draft) {
    let Some(elf) = &mut draft.elf else { return };
    let index = rng.below(4) as usize;
    match rng.below(8) {
        0 => elf.header.mark = [0; 4],
        1 => elf.header.mark.reverse(),
        _ => elf.header.mark[index] ^= 1 << rng.below(8),
    }
}

/// 18: an image that ends in the ELF header, with a header in it.
pub fn image_under_52(rng: &mut Rng, draft: &mut Draft) {
    let offset = 4 * rng.range(1, 9) as usize;
    let kept = rng.range((offset + SHORT_HEADER) as u64, ELF_HEADER as u64 - 1) as usize;
    draft.header.offset = offset;
    draft.filler.truncate(rng.pick(&[kept, ELF_HEADER - 1]));
}

/// 15 or 6: the shortest image that loads, or without its last byte, which is its header's.
pub fn shortest(rng: &mut Rng, draft: &mut Draft) {
    let mut image = shortest_elf();
    draft.elf = None;
    draft.decoys.clear();
    (draft.header.offset, draft.header.flags) = (image.len() - SHORT_HEADER, 0);
    image.truncate(image.len() - rng.pick(&[0, 0, 1]));
    draft.filler = image;
}

/// 18: another class, data, type, machine or entry size.
pub fn another_kind(rng: &mut Rng, draft: &mut Draft) {
    let Some(Elf { header, .. }) = &mut draft.elf else { return };
    let bit = 1 << rng.below(16);
    match rng.below(5) {
        0 => header.ei_class ^= 1 << rng.below(8),
        1 => header.ei_data ^= 1 << rng.below(8),
        2 => header.e_type = rng.pick(&[header.e_type ^ bit, 0, 1, 3, 4]),
        3 => header.e_machine = rng.pick(&[header.e_machine ^ bit, 0, 62, 0x0300]),
        _ => header.e_phentsize = rng.pick(&[header.e_phentsize ^ bit, 0, 31, 33, 56]),
    }
}

/// Puts another table behind all that stands in the image.
fn put_table(draft: &mut Draft, table: Vec<ProgramHeader>) {
    let Some(elf) = &mut draft.elf else { return };
    elf.header.e_phoff = draft.filler.len() as u32;
    elf.header.e_phnum = table.len() as u16;
    draft.filler.extend(vec![0; PROGRAM_HEADER * table.len()]);
    elf.table = table;
}

/// Puts one program header more into the table, if there is a place for it.
fn add_header(rng: &mut Rng, draft: &mut Draft, header: ProgramHeader) {
    let Some(elf) = &draft.elf else { return };
    let mut table = elf.table.clone();
    if table.len() < MAX_PROGRAM_HEADERS {
        let index = rng.below(table.len() as u64 + 1) as usize;
        table.insert(index, header);
    }
    put_table(draft, table);
}

/// 18: a table that ends beyond the image, mostly by a byte.
pub fn table_beyond_image(rng: &mut Rng, draft: &mut Draft) {
    let other = wild_header(rng, 6);
    add_header(rng, draft, other);
    let length = draft.filler.len() as u32;
    let Some(Elf { header, table }) = &mut draft.elf else { return };
    let table_length = (PROGRAM_HEADER * table.len()) as u32;
    let around = 0u32.wrapping_sub(table_length);
    let (last, small) = (length.wrapping_sub(table_length), rng.below(100) as u32);
    match rng.below(8) {
        0..=2 => header.e_phoff = last.wrapping_add(1),
        3 => header.e_phoff = last.wrapping_add(small + 1),
        4 => header.e_phoff = rng.pick(&[length, u32::MAX]),
        5 => header.e_phoff = around.wrapping_add(rng.pick(&[0, small])),
        6 => header.e_phnum = rng.pick(&[header.e_phnum.wrapping_add(1), 16, u16::MAX]),
        _ => draft.filler.truncate(length as usize - 1),
    }
}

/// 18: 17 program headers or more.
pub fn over_16_entries(rng: &mut Rng, draft: &mut Draft) {
    let Some(elf) = &draft.elf else { return };
    let many = rng.range(18, 300) as usize;
    let count = MAX_PROGRAM_HEADERS + 1;
    let p_type = rng.pick(&[0, 2, 6]);
    let mut table = elf.table.clone();
    table.resize(rng.pick(&[count, count, count, many]), wild_header(rng, p_type));
    put_table(draft, table);
}

/// 18: nothing to load.
pub fn no_segment(rng: &mut Rng, draft: &mut Draft) {
    let Some(Elf { header, table }) = &mut draft.elf else { return };
    let p_type = rng.pick(&[0, 2, 3, 0x0100_0001, 0x6474_E551]);
    match rng.below(3) {
        0 => header.e_phnum = 0,
        1 => table.iter_mut().filter(|h| h.is_segment()).for_each(|h| h.p_type = p_type),
        _ => {
            for header in table.iter_mut().filter(|h| h.is_segment()) {
                (header.p_filesz, header.p_memsz) = (0, 0);
            }
        }
    }
}

/// The indices of the segments in the table.
fn segments(elf: &Elf) -> Vec<usize> {
    (0..elf.table.len()).filter(|&index| elf.table[index].is_segment()).collect()
}

/// Some segment of a draft.
fn some_segment<'a>(rng: &mut Rng, draft: &'a mut Draft) -> Option<&'a mut ProgramHeader> {
    let elf = draft.elf.as_mut()?;
    match &segments(elf)[..] {
        [] => None,
        indices => Some(&mut elf.table[rng.pick(indices)]),
    }
}

/// 19: file bytes that end beyond the image, mostly by a byte.
pub fn file_bytes_outside(rng: &mut Rng, draft: &mut Draft) {
    let length = draft.filler.len() as u32;
    let Some(segment) = some_segment(rng, draft) else { return };
    segment.p_filesz = segment.p_filesz.max(1);
    let last = length.wrapping_sub(segment.p_filesz);
    let around = 0u32.wrapping_sub(segment.p_filesz);
    let past = last.wrapping_add(1);
    let more = around.wrapping_add(rng.below(100) as u32);
    segment.p_offset = rng.pick(&[past, past, past, length, around, more, u32::MAX]);
}

/// 19: a file size above the memory size, mostly by one, also above a memory size of 0.
pub fn file_size_above(rng: &mut Rng, draft: &mut Draft) {
    let length = draft.filler.len() as u32;
    if rng.one_in(2) {
        let paddr = rng.pick(&[0, 0x10_0000, u32::MAX]);
        let filesz = 1 + rng.below(u64::from(length.max(1))) as u32;
        return add_header(rng, draft, ProgramHeader::load(0, paddr, filesz.min(length), 0));
    }
    let Some(segment) = some_segment(rng, draft) else { return };
    if segment.p_filesz > 1 && rng.one_in(2) {
        segment.p_memsz = rng.pick(&[segment.p_filesz - 1, segment.p_filesz - 1, 1]);
    } else {
        segment.p_filesz = segment.p_memsz.wrapping_add(1);
        segment.p_offset = rng.pick(&[0, length.saturating_sub(segment.p_filesz)]);
    }
}

/// The exact end of a header's memory.
fn end(header: &ProgramHeader) -> u64 {
    u64::from(header.p_paddr) + u64::from(header.p_memsz)
}

/// Moves a segment, and the entry with it if it lies there.
fn move_to(elf: &mut Elf, index: usize, address: u64) {
    let segment = &mut elf.table[index];
    let behind = elf.header.e_entry.wrapping_sub(segment.p_paddr);
    segment.p_paddr = address as u32;
    if behind < segment.p_filesz {
        elf.header.e_entry = segment.p_paddr.wrapping_add(behind);
    }
}

/// One of the indices that is not this one, if there is one.
fn other(rng: &mut Rng, indices: &[usize], not: usize) -> usize {
    let others: Vec<usize> = indices.iter().copied().filter(|&index| index != not).collect();
    match &others[..] {
        [] => not,
        others => rng.pick(others),
    }
}

/// 20: two segments that share an address, mostly the last one of the highest or the first one of
/// the lowest and no other.
pub fn segments_overlap(rng: &mut Rng, draft: &mut Draft) {
    if draft.elf.as_ref().is_some_and(|elf| segments(elf).len() < 2) {
        let memsz = rng.range(1, 9) as u32;
        add_header(rng, draft, ProgramHeader::load(0, 0, 0, memsz));
    }
    let Some(elf) = &mut draft.elf else { return };
    let mut indices = segments(elf);
    indices.sort_by_key(|&index| elf.table[index].p_paddr);
    let (&[lowest, ..], &[.., highest]) = (&indices[..], &indices[..]) else { return };
    let first = u64::from(elf.table[lowest].p_paddr);
    let last = end(&elf.table[highest]) - 1;
    let (above, below) = (other(rng, &indices, highest), other(rng, &indices, lowest));
    if rng.one_in(4) {
        elf.table[above].p_filesz = 0;
    }
    let below_length = u64::from(elf.table[below].p_memsz);
    match rng.below(8) {
        0..=2 => move_to(elf, above, last),
        3..=5 if first + 1 >= below_length => move_to(elf, below, first + 1 - below_length),
        6 => elf.table[lowest].p_memsz = (last + 1 - first) as u32,
        _ => move_to(elf, above, elf.table[highest].p_paddr.into()),
    }
}

/// 14: an entry in no segment's file bytes: behind them, in zeros, between segments, or taken for
/// something else.
pub fn entry_outside_load(rng: &mut Rng, draft: &mut Draft) {
    let any = rng.next_u64() as u32;
    let Some(segment) = some_segment(rng, draft) else { return };
    if rng.one_in(3) && segment.p_filesz == segment.p_memsz {
        segment.p_filesz -= 1;
    }
    let ProgramHeader { p_offset, p_vaddr, p_paddr, p_filesz, p_memsz, .. } = *segment;
    let load_end = p_paddr.wrapping_add(p_filesz);
    let zeros = p_memsz.saturating_sub(p_filesz).max(1);
    let in_zeros = load_end.wrapping_add(any % zeros);
    let extent_end = p_paddr.wrapping_add(p_memsz);
    let before = p_paddr.wrapping_sub(1);
    let away = if p_vaddr == p_paddr { p_vaddr ^ 0xC000_0000 } else { p_vaddr };
    segment.p_vaddr = away;
    let Some(elf) = &mut draft.elf else { return };
    elf.header.e_entry = match rng.below(12) {
        0..=2 => load_end,
        3 | 4 => in_zeros,
        5 | 6 => extent_end,
        7 => before,
        8 | 9 => away,
        _ => rng.pick(&[0, u32::MAX, p_offset, any]),
    };
}

/// 15: a segment out of open memory.
pub fn kernel_not_open(rng: &mut Rng, draft: &mut Draft) {
    let window_end = draft.first.wrapping_add(draft.window as u32);
    if rng.one_in(2) {
        return segment_at_the_end(rng, draft);
    }
    let Some(segment) = some_segment(rng, draft) else { return };
    let (p_paddr, inside) = (segment.p_paddr, rng.below(u64::from(segment.p_memsz)));
    match rng.below(4) {
        0 => draft.window = 0,
        1 => segment.p_memsz = window_end.wrapping_sub(p_paddr).wrapping_add(1),
        2 => {
            draft.pairs.truncate(MAX_PAIRS - 1);
            draft.pairs.push(Pair::new(u64::from(p_paddr) + inside, 1, 2));
        }
        _ => draft.first = p_paddr.wrapping_add(1),
    }
}

/// 15: a segment that ends at 2^32 or past it, at times with another one from 0 on.
pub fn segment_at_the_end(rng: &mut Rng, draft: &mut Draft) {
    let Some(elf) = &mut draft.elf else { return };
    let indices = segments(elf);
    if indices.is_empty() {
        return;
    }
    let index = rng.pick(&indices);
    let length = u64::from(elf.table[index].p_memsz);
    let past = rng.below(length);
    move_to(elf, index, ADDRESS_SPACE - length + rng.pick(&[0, 1.min(length - 1), past]));
    if indices.len() > 1 && rng.one_in(2) {
        move_to(elf, other(rng, &indices, index), 0);
    }
}

/// 16 or 17: a highest segment that leaves little of the window.
pub fn long_segment(rng: &mut Rng, draft: &mut Draft) {
    let window_end = draft.first.wrapping_add(draft.window as u32);
    let Some(elf) = &mut draft.elf else { return };
    let segments = elf.table.iter_mut().filter(|header| header.p_type == PT_LOAD);
    if let Some(highest) = segments.max_by_key(|header| (header.p_memsz > 0, header.p_paddr)) {
        let end = window_end.wrapping_sub(rng.below(300) as u32);
        highest.p_memsz = end.saturating_sub(highest.p_paddr).max(highest.p_memsz);
    }
}
