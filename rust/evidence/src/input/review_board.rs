//! The board of the review program.

use crate::input::case::Case;
use crate::input::pair::{map_bytes, Pair};
use crate::rules::limits::{FLOOR, LOW_MEMORY, RAM};

const WINDOW: usize = 48 * 1024;

/// Its map: usable low memory and 7 MiB from 1 MiB up.
pub fn pairs() -> [Pair; 2] {
    [Pair::new(0, LOW_MEMORY, RAM), Pair::new(FLOOR, 0x70_0000, RAM)]
}

/// A submission on that board, its window all zeros.
pub fn case(submission: &[u8]) -> Case {
    Case {
        name: "on the review program's board".to_string(),
        submission: submission.to_vec(),
        operator: Vec::new(),
        map: map_bytes(&pairs()),
        window: vec![0; WINDOW],
        first: FLOOR as u32,
    }
}
