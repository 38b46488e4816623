//! The memory map (check 5).

use super::{check, number, rule, Refused};
use crate::input::pair::Pair;
use crate::rules::limits::{MAX_MAP, MAX_PAIRS, MIN_PAIR_SIZE};
use std::iter::successors;
use viertompu::Refusal;

/// The bytes of a pair's size field, which its size does not count.
const SIZE_FIELD: usize = 4;
/// Where base, length and type stand behind the start of a pair.
const BASE: u64 = 4;
const LENGTH: u64 = 12;
const TYPE: u64 = 20;

/// Check 5; gives the pairs in their order.
pub fn read(map: &[u8]) -> Result<Vec<Pair>, Refused> {
    let map_end = map.len() as u64;
    let starts = starts(map);
    let sized: Vec<(u64, u64)> =
        starts.iter().filter_map(|&start| Some((start, size(map, start)?))).collect();
    let rules = [
        rule("an empty map", map.is_empty()),
        rule("over 4,096 bytes", map.len() > MAX_MAP),
        rule("over 32 pairs", sized.len() > MAX_PAIRS),
        rule("a size under 20", sized.iter().any(|&(_, size)| size < MIN_PAIR_SIZE as u64)),
        rule("a pair past the end", sized.iter().any(|&(start, size)| end(start, size) > map_end)),
        rule("a size field past the end", starts.iter().any(|&start| end(start, 0) > map_end)),
    ];
    check(Refusal::BadMemoryMap, rules)?;
    Ok(starts.iter().filter_map(|&start| pair(map, start)).collect())
}

/// The bytes of a map of these pairs.
pub fn length(pairs: &[Pair]) -> u64 {
    pairs.iter().fold(0, |start, pair| end(start, pair.size.into()))
}

/// Where a pair ends and the next one begins, whatever its size is.
fn end(start: u64, size: u64) -> u64 {
    start + SIZE_FIELD as u64 + size
}

/// A pair's size, if its size field lies in the map.
fn size(map: &[u8], start: u64) -> Option<u64> {
    number(map, start, SIZE_FIELD)
}

/// The offsets in a map at which a pair begins. Each is 4 or more above the one before it.
fn starts(map: &[u8]) -> Vec<u64> {
    let next = |&start: &u64| Some(end(start, size(map, start)?));
    successors(Some(0), next).take_while(|&start| start < map.len() as u64).collect()
}

/// The pair that begins at an offset, if its fields lie in the map.
fn pair(map: &[u8], start: u64) -> Option<Pair> {
    Some(Pair {
        size: size(map, start)? as u32,
        base: number(map, start + BASE, 8)?,
        length: number(map, start + LENGTH, 8)?,
        kind: number(map, start + TYPE, 4)? as u32,
    })
}
