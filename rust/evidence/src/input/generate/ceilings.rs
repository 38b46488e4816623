//! Versions and ceilings of generated modules.

use crate::input::draft::{Module, Version};
use crate::input::rng::Rng;
use crate::rules::limits::{ADDRESS_SPACE, MIB, PAGE, WORD};
use std::ops::Range;

/// Version 1, or version 2 with no ceilings, with some that ask little, and with one that asks more.
pub fn any_version(rng: &mut Rng, modules: &mut [Module], window: &Range<u64>) -> Version {
    if rng.one_in(2) {
        return Version::One;
    }
    if rng.one_in(2) {
        modules.iter_mut().for_each(|module| module.ceiling = above(rng, window));
    }
    if rng.one_in(8) && !modules.is_empty() {
        let index = rng.below(modules.len() as u64) as usize;
        modules[index].ceiling = near(rng, window);
    }
    Version::Two
}

/// No ceiling, or one from the window's end on.
fn above(rng: &mut Rng, window: &Range<u64>) -> u16 {
    let end = in_mib(window.end.div_ceil(MIB));
    rng.pick(&[0, end, end + 1, in_mib(ADDRESS_SPACE / MIB), u16::MAX])
}

/// A ceiling around the window, a very low one, or any.
fn near(rng: &mut Rng, window: &Range<u64>) -> u16 {
    let (low, high) = (in_mib(window.start / MIB), in_mib(window.end / MIB));
    let any = rng.next_u64() as u16;
    rng.pick(&[low, low + 1, low + 1, high, high + 1, 1, 2, any])
}

/// A count of MiB in the address space.
fn in_mib(count: u64) -> u16 {
    u16::try_from(count).expect("at most 4,096 MiB")
}

/// One to four modules, the first as long as some boundaries or about that.
pub fn modules(rng: &mut Rng, pages: bool) -> Vec<Module> {
    let boundary = if pages { PAGE } else { WORD };
    let whole = boundary * rng.range(1, 3);
    let count = rng.range(1, 4);
    let mut modules: Vec<Module> = (0..count).map(|_| super::module(rng)).collect();
    let length = rng.pick(&[whole, whole, whole + 1, whole - 1]);
    modules[0].data = rng.bytes(length as usize);
    modules
}

/// The lowest ceiling in the window, or the one below, for one module, mostly the first; the others
/// ask little.
pub fn close(rng: &mut Rng, modules: &mut [Module], window: &Range<u64>) -> Version {
    let lowest = in_mib(window.start / MIB + 1);
    modules.iter_mut().for_each(|module| module.ceiling = rng.pick(&[0, lowest + 1]));
    let any = rng.below(modules.len() as u64) as usize;
    let index = rng.pick(&[0, 0, 0, any]);
    modules[index].ceiling = rng.pick(&[lowest, lowest, lowest, lowest - 1]);
    Version::Two
}
