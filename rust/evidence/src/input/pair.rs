//! Pairs of a memory map, for making maps.

use crate::rules::limits::MIN_PAIR_SIZE;

/// What stands in a pair behind base, length and type.
const BEHIND: u8 = 0xEE;

/// One pair; its size counts the bytes behind the size field.
#[derive(Clone, Copy, Debug, PartialEq, Eq)]
pub struct Pair {
    pub size: u32,
    pub base: u64,
    pub length: u64,
    pub kind: u32,
}

impl Pair {
    pub fn new(base: u64, length: u64, kind: u32) -> Self {
        let size = MIN_PAIR_SIZE as u32;
        Pair { size, base, length, kind }
    }

    /// Base plus length, exactly.
    pub fn end(&self) -> u128 {
        u128::from(self.base) + u128::from(self.length)
    }

    pub fn covers(&self, address: u64) -> bool {
        u128::from(self.base) <= u128::from(address) && u128::from(address) < self.end()
    }

    /// The size field and as many bytes as it says.
    fn bytes(&self) -> Vec<u8> {
        let mut bytes = Vec::new();
        bytes.extend_from_slice(&self.base.to_le_bytes());
        bytes.extend_from_slice(&self.length.to_le_bytes());
        bytes.extend_from_slice(&self.kind.to_le_bytes());
        bytes.resize(self.size as usize, BEHIND);
        [&self.size.to_le_bytes()[..], &bytes].concat()
    }
}

/// The bytes of a map.
pub fn map_bytes(pairs: &[Pair]) -> Vec<u8> {
    pairs.iter().flat_map(Pair::bytes).collect()
}
