//! Damages of what is lent: the submission's format, the operator's line, the window and the map
//! (checks 1 to 5).

use crate::input::case::Case;
use crate::input::draft::{Draft, Module, Version};
use crate::input::pair::{map_bytes, Pair};
use crate::input::rng::Rng;
use crate::rules::bytes::{put_u32, u32_at};
use crate::rules::limits::{
    LOW_MEMORY, MAX_LINE, MAX_MAP, MAX_MODULES, MAX_PAIRS, MAX_STRING, MIN_PAIR_SIZE, PREFIX, RAM,
    TABLE_ENTRY, TOP,
};
use crate::rules::offsets::{submission, table_entry};

/// 1: too short, another mark, another version.
pub fn not_a_submission(rng: &mut Rng, case: &mut Case) {
    let bytes = &mut case.submission;
    match rng.below(3) {
        0 => bytes.truncate(rng.below(PREFIX as u64) as usize),
        1 => bytes[rng.below(3) as usize] ^= 1 << rng.below(8),
        _ => {
            let version: u16 = rng.pick(&[0, 3, 0x0100, 0x0101, 0x0102, 0xFFFF]);
            bytes[submission::VERSION..][..2].copy_from_slice(&version.to_le_bytes());
        }
    }
}

/// 2: parts that are there but may not be.
pub fn bad_parts(rng: &mut Rng, draft: &mut Draft) {
    let mut module = Module { data: vec![0xAA], ..Module::default() };
    match rng.below(7) {
        0 => draft.line = overlong(rng, MAX_LINE),
        1 => put_zero(rng, &mut draft.line),
        2 => draft.modules.resize(MAX_MODULES + 1, module),
        3 => {
            module.data.clear();
            draft.modules.insert(0, module);
        }
        4 => {
            module.string = overlong(rng, MAX_STRING);
            draft.modules.push(module);
        }
        5 => {
            draft.version = Version::One;
            module.ceiling = rng.pick(&[1, 2, 0x0100, u16::MAX]);
            draft.modules.push(module);
        }
        _ => {
            put_zero(rng, &mut module.string);
            draft.modules.push(module);
        }
    }
}

/// A text longer than `most`, mostly by one byte.
fn overlong(rng: &mut Rng, most: usize) -> Vec<u8> {
    let length = most + rng.pick(&[1, 1, 101]);
    rng.text(length)
}

/// Puts a zero byte somewhere into a text.
fn put_zero(rng: &mut Rng, text: &mut Vec<u8>) {
    let at = rng.below(text.len() as u64 + 1) as usize;
    text.insert(at, 0);
}

/// 2: lengths that do not lead to the end.
pub fn bad_lengths(rng: &mut Rng, case: &mut Case) {
    let bytes = &mut case.submission;
    let count = bytes[submission::MODULE_COUNT];
    match rng.below(8) {
        0 => bytes.truncate((bytes.len() - 1).max(PREFIX)),
        1 => bytes.truncate(rng.range(PREFIX as u64, bytes.len() as u64) as usize),
        2 => bytes.extend(vec![b'x'; rng.range(1, 9) as usize]),
        3 => add_u32(bytes, submission::IMAGE_LENGTH, rng.pick(&[1, u32::MAX])),
        4 => {
            let other = rng.pick(&[0, 0x8000_0000, u32::MAX - 11, u32::MAX]);
            put_u32(bytes, submission::IMAGE_LENGTH, other);
        }
        5 => {
            let (more, fewer) = (count.wrapping_add(1), count.wrapping_sub(1));
            bytes[submission::MODULE_COUNT] = rng.pick(&[more, fewer, 16, 17, 255]);
        }
        6 => {
            let high = &mut bytes[submission::LINE_LENGTH + 1];
            *high = high.wrapping_add(1);
        }
        _ => bad_table(rng, bytes),
    }
}

/// A module table whose lengths lead a byte past the end, or to it only modulo 2^32.
fn bad_table(rng: &mut Rng, bytes: &mut [u8]) {
    // An earlier damage may have cut the table short.
    let there = (bytes.len() - PREFIX) / TABLE_ENTRY;
    let count = usize::from(bytes[submission::MODULE_COUNT]).min(there);
    if count == 0 {
        bytes[submission::MODULE_COUNT] = 1;
        return;
    }
    let entry = PREFIX + TABLE_ENTRY * rng.below(count as u64) as usize;
    let data_length = entry + table_entry::DATA_LENGTH;
    if rng.one_in(2) {
        add_u32(bytes, data_length, 1);
    } else {
        add_u32(bytes, submission::IMAGE_LENGTH, 0x8000_0000);
        add_u32(bytes, data_length, 0x8000_0000);
    }
}

/// Adds to a 32-bit number at an offset, modulo 2^32.
fn add_u32(bytes: &mut [u8], at: usize, more: u32) {
    put_u32(bytes, at, u32_at(bytes, at).wrapping_add(more));
}

/// 3: an operator's line too long or with a zero byte.
pub fn bad_operator_line(rng: &mut Rng, draft: &mut Draft) {
    match rng.below(3) {
        0 => draft.operator = overlong(rng, MAX_LINE),
        1 => put_zero(rng, &mut draft.operator),
        _ => draft.operator = vec![0],
    }
}

/// 4: a window that ends above the top.
pub fn window_past_top(rng: &mut Rng, draft: &mut Draft) {
    let length = draft.window as u64;
    let beyond = rng.range(1, 0xFFF + length);
    let beyond = rng.pick(&[1, 1, 2, 0xFFF, beyond]);
    draft.first = match rng.below(8) {
        0 => u32::MAX,
        _ => (TOP + beyond).saturating_sub(length) as u32,
    };
}

/// 5: pairs too many, too small or too long together.
pub fn bad_pairs(rng: &mut Rng, draft: &mut Draft) {
    let index = rng.below(draft.pairs.len().max(1) as u64) as usize;
    let length = map_bytes(&draft.pairs).len();
    match rng.below(4) {
        0 => draft.pairs.clear(),
        1 => draft.pairs.resize(MAX_PAIRS + 1, Pair::new(0, LOW_MEMORY, RAM)),
        2 if index < draft.pairs.len() => {
            draft.pairs[index].size = rng.below(MIN_PAIR_SIZE as u64) as u32
        }
        _ => {
            let mut last = Pair::new(0, 0, RAM);
            let total = MAX_MAP + rng.pick(&[1, 1, 4, 501]);
            last.size = total.saturating_sub(length + size_of_val(&last.size)) as u32;
            draft.pairs.push(last);
        }
    }
}

/// 5: pairs cut off, and size fields that lead past the end or around.
pub fn bad_map(rng: &mut Rng, case: &mut Case) {
    let map = &mut case.map;
    let cut = rng.below(map.len().max(1) as u64) as usize;
    match rng.below(4) {
        0 => map.truncate(map.len().saturating_sub(1)),
        1 => map.truncate(cut),
        2 => map.extend(vec![20; rng.range(1, 23) as usize]),
        _ if map.len() >= 4 => {
            let size = u32_at(map, 0);
            let around = 0u32.wrapping_sub(rng.range(1, 28) as u32);
            put_u32(map, 0, rng.pick(&[size.wrapping_add(1), around, 0x8000_0000, u32::MAX]));
        }
        _ => {}
    }
}
